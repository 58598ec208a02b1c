//! One workspace for page after page: what it gives back, and that it allocates only to grow.

use std::alloc::{GlobalAlloc, Layout, System};
use std::cell::Cell;

use lanegravel_binding::{
    AnswerBox, Direction, Finding, FusionParams, LONGEST_SIDE, MOST_GLYPHS, MOST_PIECES, Page,
    Question, RulingsParams, Workspace,
};

/// Counts the allocations of each thread.
struct Counting;

thread_local! {
    static ALLOCATIONS: Cell<usize> = const { Cell::new(0) };
}

// SAFETY: all is left to System.
unsafe impl GlobalAlloc for Counting {
    unsafe fn alloc(&self, layout: Layout) -> *mut u8 {
        ALLOCATIONS.set(ALLOCATIONS.get() + 1);
        unsafe { System.alloc(layout) }
    }

    unsafe fn dealloc(&self, place: *mut u8, layout: Layout) {
        unsafe { System.dealloc(place, layout) }
    }
}

#[global_allocator]
static COUNTING: Counting = Counting;

const SIDE: usize = 40;

const SETTINGS: RulingsParams = RulingsParams {
    merge_across_xh: 0.25,
    merge_gap_xh: 0.5,
    rule_min_contrast: 40.0,
    fold_min_length_in: 2.0,
    join_tol_xh: 0.5,
    table_min_horizontal: 2,
    table_min_vertical: 2,
    line_cluster_xh: 0.25,
    table_prior: -1.0,
    table_cells_coef: 0.75,
    table_cells_cap: 3.0,
    table_junction_coef: 1.5,
    min_free_rules: 1,
    free_rules_prior: -0.5,
    free_rules_coef: 0.4,
    free_rules_cap: 2.5,
    box_min_xh: 1.5,
    box_min_in: 0.0,
    box_max_xh: 3.0,
    box_overshoot_fraction: 0.25,
    box_aspect_tol: 0.2,
    box_tolerance_px: 0,
    box_edge_coverage: 0.6,
    box_max_inner_ink: 0.5,
    box_checked_ink: 0.1,
    grid_align_xh: 0.25,
    grid_min_boxes: 2,
    grid_prior: -1.5,
    grid_coef: 0.8,
    grid_cap: 3.5,
};

/// A square of four rules, a loose rule and a fold.
const PIECES: [[u32; 4]; 6] = [
    [2, 2, 20, 2],
    [2, 14, 20, 14],
    [2, 2, 2, 14],
    [20, 2, 20, 14],
    [2, 20, 30, 20],
    [0, 38, 39, 38],
];

/// Two frames, the right one first and ticked.
const GLYPHS: [[u32; 4]; 2] = [[20, 25, 27, 32], [4, 25, 11, 32]];

struct Form {
    gray: Vec<u8>,
    ink: Vec<u8>,
    table: Vec<i32>,
}

fn form() -> Form {
    let mut gray = vec![250; SIDE * SIDE];
    let mut ink = vec![0; SIDE * SIDE];
    for (k, [x0, y0, x1, y1]) in PIECES.into_iter().enumerate() {
        let grey = if k == 5 { 235 } else { 50 };
        for y in y0 as usize..=y1 as usize {
            gray[SIDE * y + x0 as usize..=SIDE * y + x1 as usize].fill(grey);
        }
    }
    for [x0, y0, x1, y1] in GLYPHS {
        for (x, y) in (y0..=y1).flat_map(|y| (x0..=x1).map(move |x| (x, y))) {
            let rim = x == x0 || x == x1 || y == y0 || y == y1;
            ink[SIDE * y as usize + x as usize] = u8::from(rim);
        }
    }
    ink[SIDE * 28 + 23..SIDE * 28 + 25].fill(1);
    let table = vec![0; SIDE];
    Form { gray, ink, table }
}

impl Form {
    fn page(&self) -> Page<'_> {
        Page {
            page_width: SIDE,
            page_height: SIDE,
            width: SIDE,
            height: SIDE,
            dpi: 10,
            xheight: 4.0,
            params: SETTINGS,
            fusion: FusionParams {
                llr_clip: 2.0,
                group_cap: 2.5,
            },
            gray: &self.gray,
            ink: &self.ink,
            shear: &self.table,
            shear_x: &self.table,
            pieces: PIECES.as_flattened(),
            glyphs: GLYPHS.as_flattened(),
        }
    }
}

fn allocations(run: impl FnOnce()) -> usize {
    let before = ALLOCATIONS.get();
    run();
    ALLOCATIONS.get() - before
}

#[test]
fn findings_of_each_kind() {
    let (form, mut workspace) = (form(), Workspace::new());
    let found = workspace.detect(&form.page()).expect("accepted");
    let findings: Vec<Finding> = found.findings().collect();
    assert!(matches!(
        findings[..],
        [
            Finding::Table {
                rect: [2, 2, 20, 14],
                rows: 1,
                columns: 1,
                rulings: 4,
                ..
            },
            Finding::FreeRules {
                horizontal: 1,
                vertical: 0,
                longest: 29,
                ..
            },
            Finding::Grid {
                boxes: 2,
                ticked: 1,
                ..
            },
            Finding::Fold {
                direction: Direction::Horizontal,
                length: 4.0,
                ..
            },
        ]
    ));
    let kinds = findings.iter().map(Finding::kind);
    assert!(kinds.eq([16, 17, 18, 19]));
    let evidence = findings.iter().map(|finding| finding.evidence().len());
    assert!(evidence.eq([2, 2, 2, 1]));
    assert_eq!(findings[3].rect(), PIECES[5]);
}

#[test]
fn views_of_the_lists() {
    let (form, mut workspace) = (form(), Workspace::new());
    let found = workspace.detect(&form.page()).expect("accepted");
    assert_eq!(found.levelled(), &form.gray[..]);
    assert_eq!(found.rulings().len(), 6);
    let vertical = |r: &lanegravel_binding::Ruling| r.direction == Direction::Vertical;
    assert_eq!(found.rulings().filter(vertical).count(), 2);
    assert_eq!((found.printed().len(), found.faint()), (5, &[5][..]));
    let table = found.tables().next().expect("one table");
    assert_eq!((table.rect, table.share), ([2, 2, 20, 14], 1.0));
    assert_eq!((table.members, found.free()), (&[0, 1, 2, 3][..], &[4][..]));
    let right = AnswerBox {
        rect: GLYPHS[0],
        ticked: true,
        coverage: 1.0,
    };
    assert_eq!(found.boxes().next(), Some(right));
    let grid = found.grids().next().expect("one grid");
    assert_eq!((grid.members, grid.reading), (&[0, 1][..], &[1, 0][..]));
    assert!(found.box_set(1).is_empty());
}

/// A page that is as large as one before it, or smaller, or refused, allocates nothing.
#[test]
fn allocates_only_to_grow() {
    let (form, mut workspace) = (form(), Workspace::new());
    let page = form.page();
    let first = allocations(|| assert!(workspace.detect(&page).is_ok()));
    assert!(first > 0);
    let smaller = Page {
        page_width: 1,
        page_height: 1,
        width: 1,
        height: 1,
        gray: &[9],
        ink: &[0],
        shear: &[0],
        shear_x: &[0],
        pieces: &[],
        glyphs: &[],
        ..page
    };
    let again = allocations(|| {
        for _ in 0..3 {
            let found = workspace.detect(&smaller).expect("accepted");
            assert_eq!((found.levelled(), found.findings().len()), (&[9][..], 0));
            let found = workspace.detect(&page).expect("accepted");
            assert_eq!(found.findings().len(), 4);
            assert_eq!(found.levelled(), &form.gray[..]);
            let refused = workspace.detect(&Page { dpi: 0, ..page });
            assert_eq!(refused.err(), Some(Question::Scale));
        }
    });
    assert_eq!(again, 0);
}

/// What no accepted page has makes no room past the largest page's.
#[test]
fn a_page_past_all_limits() {
    let (form, mut workspace) = (form(), Workspace::new());
    let pieces = vec![0; 4 * (MOST_PIECES + 1)];
    let glyphs = vec![0; 4 * (MOST_GLYPHS + 1)];
    let many = Page {
        pieces: &pieces,
        glyphs: &glyphs,
        ..form.page()
    };
    assert_eq!(workspace.detect(&many).err(), Some(Question::Counts));
    assert_eq!(workspace.directions.len(), MOST_PIECES);
    assert_eq!(workspace.marks.len(), MOST_GLYPHS);
    let wide = Page {
        width: LONGEST_SIDE + 1,
        height: usize::MAX,
        ..form.page()
    };
    let refused = workspace.detect(&wide).expect_err("refused");
    assert_eq!(refused, Question::Sides);
    assert!(refused.to_string().starts_with("question 1 is missed: "));
    assert_eq!(workspace.levelled.len(), SIDE * SIDE);
}

/// Lists as they are lent are asked question 14, and the way back to the page needs none.
#[test]
fn as_lent_and_back_to_the_page() {
    let form = form();
    let page = form.page();
    let refused = Workspace::new().detect_as_lent(&page).err();
    assert_eq!(refused, Some(Question::Room));
    assert_eq!(page.layout().to_page(3, 4), Ok((3, 4)));
    assert_eq!(page.layout().rect_to_page(PIECES[0]), Ok(PIECES[0]));
    let outside = page.layout().rect_to_page([0, 0, SIDE as u32, 0]);
    assert_eq!(outside, Err(Question::Rectangles));
}
