/* Lanegravel: finds ruled tables and answer boxes on a scanned questionnaire.
 *
 * Nothing has to be vetted before a call: every bit pattern of a number has its answer, every call
 * ends, and no call reads or writes memory that it was not lent. What a call takes for granted, since
 * it can't ask:
 *   lists    A list is a pointer and a count of entries. The pointer leads to that many entries and is
 *            aligned for their type; where the count is 0 it may be null. A list that is written (not
 *            const) overlaps no other list of the call; lists that are only read may overlap. No one
 *            else writes a lent list during the call, or reads one that is written.
 *   floats   The float environment is the one that a C program starts in: round to nearest, subnormal
 *            numbers kept, no traps. fesetround changes it; so does an object that was linked with
 *            GCC's -ffast-math, for the whole program, and answers then differ.
 *   stack    There is room on the stack.
 *
 * A rectangle is four numbers, x0, y0, x1, y1, both ends inside it, and the count of a list of rectangles
 * counts its NUMBERS: 4 is one rectangle and not four. LANEGRAVEL_NUMBERS gives that count. */
#ifndef LANEGRAVEL_H
#define LANEGRAVEL_H

#include <stddef.h>
#include <stdint.h>

#ifdef __cplusplus
extern "C" {
#endif

#define LANEGRAVEL_VERSION_MAJOR 0
#define LANEGRAVEL_VERSION_MINOR 1
#define LANEGRAVEL_VERSION_PATCH 0
#define LANEGRAVEL_VERSION "0.1.0"

/* The most rule pieces (or rulings) and the most glyph boxes (or boxes) of a call, and the longest side of
 * a page or picture. */
#define LANEGRAVEL_MOST_PIECES 4096
#define LANEGRAVEL_MOST_GLYPHS 16384
#define LANEGRAVEL_LONGEST_SIDE 8192

/* The count of a list of so many rectangles. */
#define LANEGRAVEL_NUMBERS(rectangles) (4 * (rectangles))

/* What a call answers as its number: the first question that is missed, or 0. A call puts those questions
 * that are about what it is given, and says with it what they ask in detail. */
enum lanegravel_question {
    LANEGRAVEL_ACCEPTED = 0,              /* no question is missed */
    LANEGRAVEL_QUESTION_SIDES = 1,        /* sides 1 to 8,192, the page no larger than the picture */
    LANEGRAVEL_QUESTION_SCALE = 2,        /* dpi not 0, x-height above 0 and at most 4,096 */
    LANEGRAVEL_QUESTION_LENGTHS = 3,      /* rasters and shear tables as long as the sides ask */
    LANEGRAVEL_QUESTION_SHEARS = 4,       /* every shear keeps the page inside the picture */
    LANEGRAVEL_QUESTION_COUNTS = 5,       /* at most 4,096 pieces, 16,384 glyph boxes, all whole */
    LANEGRAVEL_QUESTION_RECTANGLES = 6,   /* every rectangle ordered and inside the picture */
    LANEGRAVEL_QUESTION_FINITE = 7,       /* every double of the settings finite, size to 1,000,000 */
    LANEGRAVEL_QUESTION_NOT_NEGATIVE = 8, /* the eight lengths among the settings not below 0 */
    LANEGRAVEL_QUESTION_BOX_SIZES = 9,    /* box_max_xh at least box_min_xh */
    LANEGRAVEL_QUESTION_FRACTIONS = 10,   /* the five parts 0 to 1, box_tolerance_px at most 3 */
    LANEGRAVEL_QUESTION_MINIMUMS = 11,    /* both table minima at least 1, grid_min_boxes 2 */
    LANEGRAVEL_QUESTION_CAPS = 12,        /* llr_clip and group_cap finite, 0 to 1,000,000 */
    LANEGRAVEL_QUESTION_FREE_RULES = 13,  /* min_free_rules at least 1 */
    LANEGRAVEL_QUESTION_ROOM = 14,        /* every lent list has the room that is needed */
    LANEGRAVEL_QUESTION_EVIDENCE = 15     /* every evidence number finite; lanegravel_detect alone */
};

/* The kinds of findings. */
enum lanegravel_kind {
    LANEGRAVEL_TABLE = 16,
    LANEGRAVEL_FREE_RULES = 17,
    LANEGRAVEL_GRID = 18,
    LANEGRAVEL_FOLD = 19
};

/* The sum of the values: up to 8 are added from 0.0 left to right; a longer list is cut at half its
 * length, rounded down, and the sums of its two halves are added. An empty list gives 0.0. */
double lanegravel_pairwise_sum(const double *values, size_t count);

/* x to six decimals: x times 1,000,000, rounded as by lanegravel_round, over 1,000,000. A zero of
 * either sign comes out as 0.0; infinities and NaN stay; a product past the largest float gives an
 * infinity. */
double lanegravel_round_output(double x);

/* The product of a and b in binary64, rounded as by lanegravel_round, as a whole number: past
 * either end of int64_t the end itself, for NaN 0. */
int64_t lanegravel_rounded_product(double a, double b);

/* The whole number nearest to x, halves away from zero (IEEE 754-2019 roundToIntegralTiesToAway).
 * The sign of x stays, also on a zero; infinities and NaN stay. */
double lanegravel_round(double x);

/* A part of the member list. */
struct lanegravel_members_of_answer {
    size_t start;
    size_t count;
};

/* The members of one set of a listing of `count` sets, as a part of the member list. A set number
 * at or past the count, bounds outside the lists, or a start past its end, give the empty part. The
 * part lies in the member list and starts where the set before it ends; the empty part starts at 0. */
struct lanegravel_members_of_answer lanegravel_members_of(
    const uint32_t *members, size_t members_count, const uint32_t *ends, size_t ends_count,
    size_t count, size_t set);

/* The settings. A name that ends in _xh is in x-heights, one that ends in _in is in inches. */
struct lanegravel_rulings_params {
    double merge_across_xh;
    double merge_gap_xh;
    double rule_min_contrast;
    double fold_min_length_in;
    double join_tol_xh;
    uint32_t table_min_horizontal;
    uint32_t table_min_vertical;
    double line_cluster_xh;
    double table_prior;
    double table_cells_coef;
    double table_cells_cap;
    double table_junction_coef;
    uint32_t min_free_rules;
    double free_rules_prior;
    double free_rules_coef;
    double free_rules_cap;
    double box_min_xh;
    double box_min_in;
    double box_max_xh;
    double box_overshoot_fraction;
    double box_aspect_tol;
    uint32_t box_tolerance_px;
    double box_edge_coverage;
    double box_max_inner_ink;
    double box_checked_ink;
    double grid_align_xh;
    uint32_t grid_min_boxes;
    double grid_prior;
    double grid_coef;
    double grid_cap;
};

/* The bounds of the log odds. */
struct lanegravel_fusion_params {
    double llr_clip;
    double group_cap;
};

/* 0 where the settings are in their ranges, and otherwise the number of the first question that
 * they miss:
 *    7  every double is finite and from -1,000,000 to 1,000,000;
 *    8  merge_across_xh, merge_gap_xh, join_tol_xh, line_cluster_xh, box_min_xh, box_min_in,
 *       grid_align_xh and fold_min_length_in are not below 0;
 *    9  box_max_xh is at least box_min_xh;
 *   10  box_edge_coverage, box_max_inner_ink, box_checked_ink, box_aspect_tol and
 *       box_overshoot_fraction are from 0 to 1, box_tolerance_px is at most 3;
 *   11  table_min_horizontal and table_min_vertical are at least 1, grid_min_boxes at least 2;
 *   13  min_free_rules is at least 1.
 * Minus zero is not below 0. */
uint32_t lanegravel_validate(struct lanegravel_rulings_params p);

/* 0 where llr_clip and group_cap are finite and from 0 to 1,000,000, and otherwise 12. */
uint32_t lanegravel_validate_fusion(struct lanegravel_fusion_params f);

/* Levelling. A page of page_width by page_height is moved into a picture of width by height: page
 * pixel (X, Y) goes to row R = Y + shear[X], column X + shear_x[R]. A call returns 0, or the number
 * of the first question that is missed, and then writes nothing:
 *   1  page and levelled sides 1 to 8,192, the page no larger than the picture either way
 *   3  the page exactly page_width * page_height bytes, given or lent; shear page_width entries,
 *      shear_x height entries
 *   4  shear entries 0 to height - page_height, shear_x entries 0 to width - page_width
 *   6  the place or rectangle ordered and inside the picture
 *  14  the levelled raster exactly width * height bytes, lent or given */

/* Puts 1, 3, 4 and 14. Writes the levelled raster, row by row: a place that a page pixel reaches
 * holds that pixel, every other 255. */
uint32_t lanegravel_level_gray(size_t page_width, size_t page_height, size_t width, size_t height,
                               const uint8_t *gray, size_t gray_count,
                               const int32_t *shear, size_t shear_count,
                               const int32_t *shear_x, size_t shear_x_count,
                               uint8_t *out, size_t out_count);

/* Puts 1, 3, 4 and 14. The inverse: writes the page, row by row, each pixel from its levelled place. Of
 * a raster that lanegravel_level_gray wrote with the same sides and tables, this is the page that it was
 * given, byte by byte. Levelled again, the page gives this raster if and only if every place that no page
 * pixel reaches is 255 in it. */
uint32_t lanegravel_unlevel(size_t page_width, size_t page_height, size_t width, size_t height,
                            const uint8_t *levelled, size_t levelled_count,
                            const int32_t *shear, size_t shear_count,
                            const int32_t *shear_x, size_t shear_x_count,
                            uint8_t *out, size_t out_count);

/* The number of the first missed question, and a page place: 0, 0 where the number is not 0. */
struct lanegravel_to_page_answer {
    uint32_t number;
    int64_t x;
    int64_t y;
};

/* Puts 1, 3, 4 and 6. From levelled place (x, y) to the page: the place of a page pixel maps to that
 * pixel; a place in the picture's padding maps outside the page, and reads shear at the nearest page
 * column. */
struct lanegravel_to_page_answer
lanegravel_to_page(size_t page_width, size_t page_height, size_t width, size_t height,
                   const int32_t *shear, size_t shear_count,
                   const int32_t *shear_x, size_t shear_x_count, uint32_t x, uint32_t y);

/* The number of the first missed question, and a page rectangle, both ends inside it: all 0 where
 * the number is not 0. */
struct lanegravel_rect_to_page_answer {
    uint32_t number;
    uint32_t x0;
    uint32_t y0;
    uint32_t x1;
    uint32_t y1;
};

/* Puts 1, 3, 4 and 6. The page rectangle around the four corners of a levelled rectangle, each
 * mapped as by lanegravel_to_page, clamped into the page. */
struct lanegravel_rect_to_page_answer
lanegravel_rect_to_page(size_t page_width, size_t page_height, size_t width, size_t height,
                        const int32_t *shear, size_t shear_count,
                        const int32_t *shear_x, size_t shear_x_count,
                        uint32_t x0, uint32_t y0, uint32_t x1, uint32_t y1);

/* What lanegravel_segments answers: the number of the first question that is missed, 0 where the
 * page is accepted, and the number of rulings, 0 on refusal. */
struct lanegravel_segments_answer {
    uint32_t number;
    size_t count;
};

/* Joins the rule pieces of a levelled page to rulings. raster is the levelled grey picture of width
 * by height; a piece is four numbers, x0, y0, x1, y1, both ends inside it. A piece at least as wide
 * as high is horizontal. Two pieces touch when their directions agree, their doubled centres differ
 * by at most 2 * round(merge_across_xh * xheight), and larger start - smaller end - 1 is at most
 * round(merge_gap_xh * xheight). Each closed set of pieces is one ruling. Rulings stand by y0, x0,
 * y1, x1 of the smallest rectangle around their pieces, then by smallest piece index.
 *
 * rects gets four numbers a ruling; directions 0 for horizontal and 1 for vertical, as its pieces
 * are; contrasts the paper beside it less the mean of the darkest pixels across it; members the
 * piece indexes of ruling after ruling, ascending in each; ends where the members of each ruling
 * end. Places past the answers keep their content. The five lists that follow are work lists, of
 * free content after an accepted call. A call that misses a question writes nothing at all:
 *   1  width and height 1 to 8,192
 *   2  xheight finite, above 0, at most 4,096
 *   5  at most 4,096 pieces, four numbers each
 *   6  every piece ordered and inside the picture
 *   7 to 11 and 13  the settings, as lanegravel_validate has them
 *  14  raster exactly width * height bytes, rects four numbers a piece, every other list one entry */
struct lanegravel_segments_answer lanegravel_segments(
    const uint8_t *raster, size_t raster_count, size_t width, size_t height, double xheight,
    const uint32_t *pieces, size_t pieces_count, struct lanegravel_rulings_params p,
    uint32_t *rects, size_t rects_count, uint32_t *directions, size_t directions_count,
    double *contrasts, size_t contrasts_count, uint32_t *members, size_t members_count,
    uint32_t *ends, size_t ends_count, uint32_t *parents, size_t parents_count,
    uint32_t *listed, size_t listed_count, uint32_t *listed_ends, size_t listed_ends_count,
    uint32_t *work, size_t work_count, uint64_t *keys, size_t keys_count);

/* What lanegravel_tables found: the number of the first missed question, 0 where none is missed, and
 * how many sets, tables and free rulings there are; all 0 where a question is missed. */
struct lanegravel_tables_answer {
    uint32_t number;
    size_t sets;
    size_t tables;
    size_t free;
};

/* Tables among rulings. A ruling is a rectangle of `rects` (x0, y0, x1, y1, both ends inside) with
 * its direction (0 horizontal, 1 vertical); its index is its place. The questions, in order:
 *    2  xheight is finite, above 0 and at most 4,096;
 *    5  there are at most 4,096 rulings, `rects` has four numbers for each, `directions` has one for
 *       each, 0 or 1;
 *    6  every rectangle is ordered, its coordinates below 8,192;
 *    7 to 11, 13  the settings are in their ranges;
 *   14  every list has an entry for each ruling, `bounds` four.
 * A refused call writes nothing. An accepted one writes, each from the front, and keeps the rest:
 *   members, ends      the closed sets by smallest index, members ascending, and the end of each set;
 *   numbers            for each table the number of its set, ascending; beside it
 *   bounds             the smallest rectangle around the set, four numbers,
 *   rows, columns      its lines minus one each way,
 *   rulings, shares    the number of its rulings, and joined ends over all ends;
 *   free               the members of all other sets, set by set.
 * chosen, parents, work and keys are work lists: after an accepted call their content is free. */
struct lanegravel_tables_answer lanegravel_tables(
    double xheight, struct lanegravel_rulings_params p,
    const uint32_t *rects, size_t rects_count, const uint32_t *directions, size_t directions_count,
    uint32_t *members, size_t members_count, uint32_t *ends, size_t ends_count,
    uint32_t *numbers, size_t numbers_count, uint32_t *bounds, size_t bounds_count,
    uint32_t *rows, size_t rows_count, uint32_t *columns, size_t columns_count,
    uint32_t *rulings, size_t rulings_count, double *shares, size_t shares_count,
    uint32_t *free, size_t free_count, uint32_t *chosen, size_t chosen_count,
    uint32_t *parents, size_t parents_count, uint32_t *work, size_t work_count,
    uint64_t *keys, size_t keys_count);

/* What lanegravel_boxes answers: the number of the first question that is missed, 0 where the page is
 * accepted, and the number of boxes, 0 on refusal. */
struct lanegravel_boxes_answer {
    uint32_t number;
    size_t count;
};

/* Finds the boxes of a levelled page: hollow squares with four straight edges. ink has width * height
 * bytes, row by row, and a byte that is not 0 is ink; a glyph box is four numbers, x0, y0, x1, y1,
 * both ends inside it. Products run left to right. A glyph box is passed over when
 *   - a side of it is below box_min_xh * xheight or above 1.6 * box_max_xh * xheight;
 *   - no row has more ink than box_overshoot_fraction times its width, or no column more than that
 *     times its height; its frame goes from the first such row and column to the last;
 *   - a side of the frame is below the larger of box_min_xh * xheight and box_min_in * dpi, or above
 *     box_max_xh * xheight;
 *   - the frame's sides differ by more than box_aspect_tol times the larger;
 *   - the edge coverage is below box_edge_coverage: for each side, the longest unbroken run of places
 *     with ink in the band of box_tolerance_px + 1 rows or columns inside the frame, over the side's
 *     length; the least of the four;
 *   - more than box_max_inner_ink of the frame's inner half is ink.
 * Every other glyph box gives one box, in the order of the glyph boxes.
 *
 * rects gets the frame, four numbers a box; marks 1 where at least box_checked_ink of the inner half
 * is ink, else 0; coverages the edge coverage. Places past the answers keep their content. A call
 * that misses a question writes nothing at all:
 *   1  width and height 1 to 8,192
 *   2  dpi not 0; xheight finite, above 0, at most 4,096
 *   3  ink exactly width * height bytes
 *   5  at most 16,384 glyph boxes, four numbers each
 *   6  every glyph box ordered and inside the picture
 *   7 to 11 and 13  the settings, as lanegravel_validate has them
 *  14  rects four numbers a glyph box, marks and coverages one entry */
struct lanegravel_boxes_answer lanegravel_boxes(
    size_t width, size_t height, uint16_t dpi, double xheight, const uint8_t *ink, size_t ink_count,
    const uint32_t *glyphs, size_t glyphs_count, struct lanegravel_rulings_params p,
    uint32_t *rects, size_t rects_count, uint32_t *marks, size_t marks_count,
    double *coverages, size_t coverages_count);

/* What lanegravel_box_grids found: the number of the first missed question, 0 where none is missed,
 * and how many sets and grids there are; both 0 where a question is missed. */
struct lanegravel_box_grids_answer {
    uint32_t number;
    size_t sets;
    size_t grids;
};

/* Grids among boxes. A box is a rectangle of `rects` (x0, y0, x1, y1, both ends inside); its index is
 * its place. Two boxes touch when their widths differ by at most 0.3 * the larger, in binary64, and
 * either doubled centre, x0 + x1 or y0 + y1, differs by at most round(2 * grid_align_xh * xheight).
 * The questions, in order:
 *    2  xheight is finite, above 0 and at most 4,096;
 *    5  there are at most 16,384 boxes, four numbers each;
 *    6  every rectangle is ordered, its coordinates below 8,192;
 *    7 to 11, 13  the settings are in their ranges;
 *   14  every list has an entry for each box.
 * A refused call writes nothing. An accepted one writes, each from the front, and keeps the rest:
 *   members, ends      the closed sets by smallest index, members ascending, and the end of each set;
 *   reading            the members of each set by y0, then x0, then index, in the places of the set;
 *   numbers            for each grid, a set of at least grid_min_boxes, the number of its set,
 *                      ascending.
 * parents, work and keys are work lists: after an accepted call their content is free. */
struct lanegravel_box_grids_answer lanegravel_box_grids(
    double xheight, struct lanegravel_rulings_params p, const uint32_t *rects, size_t rects_count,
    uint32_t *members, size_t members_count, uint32_t *ends, size_t ends_count,
    uint32_t *reading, size_t reading_count, uint32_t *numbers, size_t numbers_count,
    uint32_t *parents, size_t parents_count, uint32_t *work, size_t work_count,
    uint64_t *keys, size_t keys_count);

/* The log odds of a finding: prior + (0.0 + s), where s is the sum of the llrs as by
 * lanegravel_pairwise_sum, clamped: below -group_cap it is -group_cap, above group_cap it is
 * group_cap. Any values have their answer. */
double lanegravel_log_odds(double prior, const double *llrs, size_t llrs_count, double group_cap);

/* A finding: found is 1, and beside it the number of its kind, its rectangle on the page, three whole
 * facts, its log odds and two evidences, each a value, the threshold that it is held against and its
 * llr. Where there is none, all is 0. What a kind doesn't have is 0 too:
 *   kind            a, b, c                                       second_value     length
 *   16 table        rows, columns, rulings                        joined share     -
 *   17 free rules   horizontal, vertical, the longest's length    mean contrast    -
 *   18 grid         boxes, ticked, -                              mean edge        -
 *   19 fold         direction (0 horizontal, 1 vertical), -, -    -                inches */
struct lanegravel_finding_at_answer {
    uint32_t found;
    uint32_t kind;
    uint32_t x0;
    uint32_t y0;
    uint32_t x1;
    uint32_t y1;
    uint32_t a;
    uint32_t b;
    uint32_t c;
    double log_odds;
    double first_value;
    double first_threshold;
    double first_llr;
    double second_value;
    double second_threshold;
    double second_llr;
    double length;
};

/* Finding i of `count` in the lists of findings, `rects` with four numbers for each and every other
 * list with one entry. There is none where i is at or past the count, where a list has no entry i,
 * where the kind is none of the four, or where a fold's direction is neither 0 nor 1. */
struct lanegravel_finding_at_answer lanegravel_finding_at(
    const uint32_t *rects, size_t rects_count, const uint32_t *kinds, size_t kinds_count,
    const uint32_t *a, size_t a_count, const uint32_t *b, size_t b_count,
    const uint32_t *c, size_t c_count, const double *log_odds, size_t log_odds_count,
    const double *first_values, size_t first_values_count,
    const double *first_thresholds, size_t first_thresholds_count,
    const double *first_llrs, size_t first_llrs_count,
    const double *second_values, size_t second_values_count,
    const double *second_thresholds, size_t second_thresholds_count,
    const double *second_llrs, size_t second_llrs_count,
    const double *lengths, size_t lengths_count, size_t count, size_t i);

/* A page as one call. What it answers: the number of the first question that is missed, 0 where the
 * page is accepted; the six counts of the page; the number of findings; and how many sets of printed
 * rulings and of boxes are listed, and how many printed rulings are free. There are as many sets of
 * pieces as rulings. Where the number is not 0, every count is 0. */
struct lanegravel_detect_answer {
    uint32_t number;
    size_t rulings;
    size_t printed;
    size_t faint;
    size_t tables;
    size_t boxes;
    size_t grids;
    size_t findings;
    size_t printed_sets;
    size_t free;
    size_t box_sets;
};

/* What a page is given by, for lanegravel_detect_into. Each list has its count behind it. */
struct lanegravel_page {
    size_t page_width, page_height; /* of the page as it was scanned */
    size_t width, height;           /* of the levelled picture */
    uint16_t dpi;
    double xheight;
    struct lanegravel_rulings_params params;
    struct lanegravel_fusion_params fusion;
    const uint8_t *gray; /* the page, row by row: page_width * page_height bytes */
    size_t gray_count;
    const uint8_t *ink; /* levelled, row by row: width * height bytes, not 0 is ink */
    size_t ink_count;
    const int32_t *shear; /* how far each page column goes down */
    size_t shear_count;
    const int32_t *shear_x; /* how far each levelled row goes to the right */
    size_t shear_x_count;
    const uint32_t *pieces; /* levelled rectangles */
    size_t pieces_count;    /* of NUMBERS, four a piece */
    const uint32_t *glyphs; /* levelled rectangles */
    size_t glyphs_count;    /* of NUMBERS, four a glyph box */
};

/* A lent list: where its entries are, and how many. Where the count is 0, entries may be null. */
struct lanegravel_u8_list {
    uint8_t *entries;
    size_t count;
};
struct lanegravel_u32_list {
    uint32_t *entries;
    size_t count;
};
struct lanegravel_u64_list {
    uint64_t *entries;
    size_t count;
};
struct lanegravel_f64_list {
    double *entries;
    size_t count;
};

/* The lists that a page is read into, for n pieces and m glyph boxes. Behind each list stands the
 * least count that it needs (the levelled raster must have exactly that), then what it holds from its
 * front after an accepted page; an index is a place from 0. No two lists overlap. */
struct lanegravel_lists {
    struct lanegravel_u8_list levelled; /* width * height: the levelled raster, row by row */

    /* rulings, by y0, x0, y1, x1, then by smallest piece; entry k is about ruling k */
    struct lanegravel_u32_list rects;      /* 4n: x0, y0, x1, y1 of each, both ends inside */
    struct lanegravel_u32_list directions; /* n: 0 horizontal, 1 vertical */
    struct lanegravel_f64_list contrasts;  /* n: the paper beside it less the darkest across it */
    struct lanegravel_u32_list printed;    /* n: rulings of at least rule_min_contrast, ascending */
    struct lanegravel_u32_list faint;      /* n: the other rulings, ascending */

    /* tables, by the smallest of their rulings; entry k is about table k */
    struct lanegravel_u32_list bounds;  /* 4n: the smallest rectangle around it, levelled */
    struct lanegravel_u32_list rows;    /* n: its lines across, minus one */
    struct lanegravel_u32_list columns; /* n: its lines down, minus one */
    struct lanegravel_u32_list rulings; /* n: how many rulings it has */
    struct lanegravel_f64_list shares;  /* n: joined ends over all ends */
    struct lanegravel_u32_list free;    /* n: places in printed that are in no table, set by set */

    /* boxes, in the order of their glyph boxes; entry k is about box k */
    struct lanegravel_u32_list boxes;     /* 4m: its frame, levelled */
    struct lanegravel_u32_list marks;     /* m: 1 ticked, 0 not */
    struct lanegravel_f64_list coverages; /* m: its edge coverage */
    struct lanegravel_u32_list reading;   /* m: as box_members, each set by y0, then x0, then index */

    /* the closed sets: the members of set after set, ascending in each, and where each set ends;
     * lanegravel_members_of gives the members of one */
    struct lanegravel_u32_list piece_members;   /* n: pieces; set k is that of ruling k */
    struct lanegravel_u32_list printed_members; /* n: places in printed; sets by smallest member */
    struct lanegravel_u32_list box_members;     /* m: boxes; sets by smallest member */
    struct lanegravel_u32_list piece_ends;      /* n: one a ruling */
    struct lanegravel_u32_list printed_ends;    /* n: one a set, printed_sets in all */
    struct lanegravel_u32_list box_ends;        /* m: one a set, box_sets in all */
    struct lanegravel_u32_list table_numbers;   /* n: the set of each table among the printed sets */
    struct lanegravel_u32_list grid_numbers;    /* m: the set of each grid among the box sets */

    /* findings, by y0, x0 and kind; entry k is about finding k, as lanegravel_finding_at reads it */
    struct lanegravel_u32_list page;              /* 4(n + m): its rectangle on the page */
    struct lanegravel_u32_list kinds;             /* n + m: 16, 17, 18 or 19 */
    struct lanegravel_u32_list fact_a;            /* n + m: a */
    struct lanegravel_u32_list fact_b;            /* n + m: b */
    struct lanegravel_u32_list fact_c;            /* n + m: c */
    struct lanegravel_f64_list log_odds;          /* n + m */
    struct lanegravel_f64_list first_values;      /* n + m */
    struct lanegravel_f64_list first_thresholds;  /* n + m */
    struct lanegravel_f64_list first_llrs;        /* n + m */
    struct lanegravel_f64_list second_values;     /* n + m */
    struct lanegravel_f64_list second_thresholds; /* n + m */
    struct lanegravel_f64_list second_llrs;       /* n + m */
    struct lanegravel_f64_list lengths;           /* n + m */

    /* work lists: of free content after an accepted page; no answer depends on what they held */
    struct lanegravel_u32_list parents;     /* n */
    struct lanegravel_u32_list listed;      /* n */
    struct lanegravel_u32_list listed_ends; /* n */
    struct lanegravel_u32_list order;       /* n */
    struct lanegravel_u64_list keys;        /* n */
    struct lanegravel_u32_list box_parents; /* m */
    struct lanegravel_u32_list box_order;   /* m */
    struct lanegravel_u64_list box_keys;    /* m */
};

/* The memory of a page's lists in one allocation: so many bytes, for so many pieces and glyph boxes
 * (rectangles, not numbers) and a levelled picture of these sides. What a page can't have and be accepted
 * is counted as the most that it can have: such a page misses question 1 or 5 before 14 is put. */
static inline size_t lanegravel_lists_size(size_t pieces, size_t glyphs, size_t width, size_t height);

/* The lists laid over such memory, one behind the other, the widest entries first. The memory is aligned
 * for double and uint64_t, as malloc's is, and not null; it need not be written before. */
static inline struct lanegravel_lists lanegravel_lists_over(void *memory, size_t pieces, size_t glyphs,
                                                            size_t width, size_t height);

/* Reads a page: levels it, joins its pieces to rulings, parts these into printed and faint, finds the
 * tables among the printed, the boxes among the glyph boxes and the grids among the boxes, and makes
 * the findings. Each step is that of the call about it alone, on the same input: lanegravel_level_gray,
 * lanegravel_segments, lanegravel_tables (of the printed rulings), lanegravel_boxes,
 * lanegravel_box_grids. The questions, in order:
 *    1  page and levelled sides 1 to 8,192, the page no larger than the picture either way
 *    2  dpi not 0; xheight finite, above 0, at most 4,096
 *    3  gray page_width * page_height bytes, ink width * height bytes, shear page_width entries,
 *       shear_x height entries
 *    4  shear entries 0 to height - page_height, shear_x entries 0 to width - page_width
 *    5  at most 4,096 pieces and 16,384 glyph boxes, four numbers each
 *    6  every piece and every glyph box ordered and inside the picture
 *    7 to 11  the settings, as lanegravel_validate has them
 *   12  llr_clip and group_cap, as lanegravel_validate_fusion has them
 *   13  min_free_rules at least 1
 *   14  every list has the room that struct lanegravel_lists says
 *   15  every evidence number is finite
 * A page that misses one of 1 to 14 leaves every list as it was, the work lists too. One that misses
 * 15 has the levelled raster written, and all other lists are of free content. An accepted page writes
 * each list from the front; places past the last answer keep their content.
 *
 * The findings are of four kinds: each table makes one of kind 16; the free rulings, where there are at
 * least min_free_rules, one of kind 17; each grid one of kind 18; each faint ruling that is at least
 * fold_min_length_in long one of kind 19.
 *
 * Each parameter from levelled on is the first of so many lists, one behind the other in memory: two
 * for rects (rulings, boxes), tags (directions, marks), chosen (printed, reading), rest (free, faint),
 * numbers (tables, grids), parents and order (pieces, glyph boxes), three for values (contrasts, shares,
 * coverages), members and ends (pieces, printed rulings, boxes), four for facts (kinds, a, b, c), eight
 * for scores (log_odds to lengths in the order above), and one
 * for every other. The call writes into the lists, and leaves the structs that lend them as they are.
 * lanegravel_detect_into hands them over by name. */
struct lanegravel_detect_answer lanegravel_detect(
    size_t page_width, size_t page_height, size_t width, size_t height, uint16_t dpi, double xheight,
    struct lanegravel_rulings_params p, struct lanegravel_fusion_params f,
    const uint8_t *gray, size_t gray_count, const uint8_t *ink, size_t ink_count,
    const int32_t *shear, size_t shear_count, const int32_t *shear_x, size_t shear_x_count,
    const uint32_t *pieces, size_t pieces_count, const uint32_t *glyphs, size_t glyphs_count,
    struct lanegravel_u8_list *levelled, struct lanegravel_u32_list *rects,
    struct lanegravel_u32_list *tags, struct lanegravel_f64_list *values,
    struct lanegravel_u32_list *chosen, struct lanegravel_u32_list *rest,
    struct lanegravel_u32_list *members, struct lanegravel_u32_list *ends,
    struct lanegravel_u32_list *numbers, struct lanegravel_u32_list *bounds,
    struct lanegravel_u32_list *rows, struct lanegravel_u32_list *columns,
    struct lanegravel_u32_list *rulings, struct lanegravel_u32_list *page,
    struct lanegravel_u32_list *facts, struct lanegravel_f64_list *scores,
    struct lanegravel_u32_list *parents, struct lanegravel_u32_list *order,
    struct lanegravel_u32_list *listed, struct lanegravel_u32_list *listed_ends,
    struct lanegravel_u64_list *keys, struct lanegravel_u64_list *box_keys);

/* The same, over a page and lists by name. The structs themselves are not changed. */
static inline struct lanegravel_detect_answer lanegravel_detect_into(
    const struct lanegravel_page *page, const struct lanegravel_lists *lists) {
    struct lanegravel_lists l = *lists;
    struct lanegravel_u32_list rects[2], tags[2], chosen[2], rest[2], members[3], ends[3], numbers[2];
    struct lanegravel_u32_list facts[4], parents[2], order[2];
    struct lanegravel_f64_list values[3], scores[8];
    rects[0] = l.rects;
    rects[1] = l.boxes;
    tags[0] = l.directions;
    tags[1] = l.marks;
    values[0] = l.contrasts;
    values[1] = l.shares;
    values[2] = l.coverages;
    chosen[0] = l.printed;
    chosen[1] = l.reading;
    rest[0] = l.free;
    rest[1] = l.faint;
    parents[0] = l.parents;
    parents[1] = l.box_parents;
    order[0] = l.order;
    order[1] = l.box_order;
    members[0] = l.piece_members;
    members[1] = l.printed_members;
    members[2] = l.box_members;
    ends[0] = l.piece_ends;
    ends[1] = l.printed_ends;
    ends[2] = l.box_ends;
    numbers[0] = l.table_numbers;
    numbers[1] = l.grid_numbers;
    facts[0] = l.kinds;
    facts[1] = l.fact_a;
    facts[2] = l.fact_b;
    facts[3] = l.fact_c;
    scores[0] = l.log_odds;
    scores[1] = l.first_values;
    scores[2] = l.first_thresholds;
    scores[3] = l.first_llrs;
    scores[4] = l.second_values;
    scores[5] = l.second_thresholds;
    scores[6] = l.second_llrs;
    scores[7] = l.lengths;
    return lanegravel_detect(
        page->page_width, page->page_height, page->width, page->height, page->dpi, page->xheight,
        page->params, page->fusion, page->gray, page->gray_count, page->ink, page->ink_count,
        page->shear, page->shear_count, page->shear_x, page->shear_x_count, page->pieces,
        page->pieces_count, page->glyphs, page->glyphs_count, &l.levelled, rects, tags, values, chosen,
        rest, members, ends, numbers, &l.bounds, &l.rows, &l.columns, &l.rulings, &l.page, facts, scores,
        parents, order, &l.listed, &l.listed_ends, &l.keys, &l.box_keys);
}

/* Finding i of the `findings` that an accepted page has left in these lists, as by lanegravel_finding_at. */
static inline struct lanegravel_finding_at_answer lanegravel_finding_in(
    const struct lanegravel_lists *lists, size_t findings, size_t i) {
    const struct lanegravel_lists *l = lists;
    return lanegravel_finding_at(
        l->page.entries, l->page.count, l->kinds.entries, l->kinds.count, l->fact_a.entries,
        l->fact_a.count, l->fact_b.entries, l->fact_b.count, l->fact_c.entries, l->fact_c.count,
        l->log_odds.entries, l->log_odds.count, l->first_values.entries, l->first_values.count,
        l->first_thresholds.entries, l->first_thresholds.count, l->first_llrs.entries,
        l->first_llrs.count, l->second_values.entries, l->second_values.count,
        l->second_thresholds.entries, l->second_thresholds.count, l->second_llrs.entries,
        l->second_llrs.count, l->lengths.entries, l->lengths.count, findings, i);
}

/* The count, and no more than that. */
static inline size_t lanegravel_at_most(size_t count, size_t most) {
    return count < most ? count : most;
}

static inline size_t lanegravel_lists_size(size_t pieces, size_t glyphs, size_t width, size_t height) {
    size_t n = lanegravel_at_most(pieces, LANEGRAVEL_MOST_PIECES);
    size_t m = lanegravel_at_most(glyphs, LANEGRAVEL_MOST_GLYPHS);
    return (11 * n + 10 * m) * sizeof(double) + (32 * n + 19 * m) * sizeof(uint32_t) +
           lanegravel_at_most(width, LANEGRAVEL_LONGEST_SIDE) *
               lanegravel_at_most(height, LANEGRAVEL_LONGEST_SIDE);
}

/* A list of so many entries at this place, and the place behind it. */
static inline struct lanegravel_f64_list lanegravel_f64_at(unsigned char **place, size_t count) {
    struct lanegravel_f64_list list;
    list.entries = (double *)(void *)*place;
    list.count = count;
    *place += count * sizeof(double);
    return list;
}
static inline struct lanegravel_u64_list lanegravel_u64_at(unsigned char **place, size_t count) {
    struct lanegravel_u64_list list;
    list.entries = (uint64_t *)(void *)*place;
    list.count = count;
    *place += count * sizeof(uint64_t);
    return list;
}
static inline struct lanegravel_u32_list lanegravel_u32_at(unsigned char **place, size_t count) {
    struct lanegravel_u32_list list;
    list.entries = (uint32_t *)(void *)*place;
    list.count = count;
    *place += count * sizeof(uint32_t);
    return list;
}

static inline struct lanegravel_lists lanegravel_lists_over(void *memory, size_t pieces, size_t glyphs,
                                                            size_t width, size_t height) {
    size_t n = lanegravel_at_most(pieces, LANEGRAVEL_MOST_PIECES);
    size_t m = lanegravel_at_most(glyphs, LANEGRAVEL_MOST_GLYPHS);
    unsigned char *place = (unsigned char *)memory;
    struct lanegravel_lists l;
    l.contrasts = lanegravel_f64_at(&place, n);
    l.shares = lanegravel_f64_at(&place, n);
    l.coverages = lanegravel_f64_at(&place, m);
    l.log_odds = lanegravel_f64_at(&place, n + m);
    l.first_values = lanegravel_f64_at(&place, n + m);
    l.first_thresholds = lanegravel_f64_at(&place, n + m);
    l.first_llrs = lanegravel_f64_at(&place, n + m);
    l.second_values = lanegravel_f64_at(&place, n + m);
    l.second_thresholds = lanegravel_f64_at(&place, n + m);
    l.second_llrs = lanegravel_f64_at(&place, n + m);
    l.lengths = lanegravel_f64_at(&place, n + m);
    l.keys = lanegravel_u64_at(&place, n);
    l.box_keys = lanegravel_u64_at(&place, m);
    l.rects = lanegravel_u32_at(&place, 4 * n);
    l.directions = lanegravel_u32_at(&place, n);
    l.printed = lanegravel_u32_at(&place, n);
    l.faint = lanegravel_u32_at(&place, n);
    l.bounds = lanegravel_u32_at(&place, 4 * n);
    l.rows = lanegravel_u32_at(&place, n);
    l.columns = lanegravel_u32_at(&place, n);
    l.rulings = lanegravel_u32_at(&place, n);
    l.free = lanegravel_u32_at(&place, n);
    l.boxes = lanegravel_u32_at(&place, 4 * m);
    l.marks = lanegravel_u32_at(&place, m);
    l.reading = lanegravel_u32_at(&place, m);
    l.piece_members = lanegravel_u32_at(&place, n);
    l.printed_members = lanegravel_u32_at(&place, n);
    l.box_members = lanegravel_u32_at(&place, m);
    l.piece_ends = lanegravel_u32_at(&place, n);
    l.printed_ends = lanegravel_u32_at(&place, n);
    l.box_ends = lanegravel_u32_at(&place, m);
    l.table_numbers = lanegravel_u32_at(&place, n);
    l.grid_numbers = lanegravel_u32_at(&place, m);
    l.page = lanegravel_u32_at(&place, 4 * (n + m));
    l.kinds = lanegravel_u32_at(&place, n + m);
    l.fact_a = lanegravel_u32_at(&place, n + m);
    l.fact_b = lanegravel_u32_at(&place, n + m);
    l.fact_c = lanegravel_u32_at(&place, n + m);
    l.parents = lanegravel_u32_at(&place, n);
    l.listed = lanegravel_u32_at(&place, n);
    l.listed_ends = lanegravel_u32_at(&place, n);
    l.order = lanegravel_u32_at(&place, n);
    l.box_parents = lanegravel_u32_at(&place, m);
    l.box_order = lanegravel_u32_at(&place, m);
    l.levelled.entries = place;
    l.levelled.count = lanegravel_at_most(width, LANEGRAVEL_LONGEST_SIDE) *
                       lanegravel_at_most(height, LANEGRAVEL_LONGEST_SIDE);
    return l;
}

#ifdef __cplusplus
}
#endif

#endif
