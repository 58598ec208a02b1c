//! Texts whose lines are not those of the form: the message, with its line's number, status 2 and
//! nothing written.

use crate::run::{call_malformed, line_malformed, malformed, page, page_with, run};

#[test]
fn the_page_itself_is_of_the_form() {
    let (written, failure) = run(&(page().join("\n") + "\n"));
    assert!(failure.is_none());
    assert_eq!(written, "lanegravel-answer 1\nrefused 4\nend\n");
}

#[test]
fn any_order_of_the_lines_is_of_the_form() {
    let mut lines = page();
    lines[1..43].reverse();
    lines.insert(1, "room findings 18446744073709551615".into());
    let (written, failure) = run(&(lines.join("\n") + "\n"));
    assert!(failure.is_none());
    assert_eq!(written, "lanegravel-answer 1\nrefused 4\nend\n");
}

#[test]
fn first_lines() {
    malformed("", "line 1: the input has no text");
    malformed("# nothing\n\n", "line 3: the input has no text");
    let begins = "a text begins `lanegravel-page 1` or `lanegravel-call 1`, not";
    line_malformed(
        1,
        "lanegravel-page 2",
        &format!("{begins} `lanegravel-page 2`"),
    );
    line_malformed(
        1,
        "lanegravel-page  1",
        &format!("{begins} `lanegravel-page  1`"),
    );
    line_malformed(1, "page 2 1", &format!("{begins} `page 2 1`"));
    call_malformed(
        "values 0",
        "line 2: the second line names a call, not `values 0`",
    );
    call_malformed(
        "call detect",
        "line 2: the second line names a call, not `call detect`",
    );
    malformed(
        "lanegravel-call 1\n",
        "line 2: the input ends before the text's `call`",
    );
}

#[test]
fn unfinished_lines_and_texts() {
    malformed(
        "lanegravel-page 1",
        "line 1: the last line has no newline at its end",
    );
    malformed(
        "lanegravel-page 1\n#",
        "line 2: the last line has no newline at its end",
    );
    malformed(
        "lanegravel-page 1\n",
        "line 2: the input ends before the text's `end`",
    );
    line_malformed(44, "end of it", "page has no line `end`");
    line_malformed(9, "# caf\u{e9}", "a byte that is not ASCII");
}

#[test]
fn unknown_doubled_and_missing_lines() {
    line_malformed(9, "glyph 0", "page has no line `glyph`");
    line_malformed(9, "values 0", "page has no line `values`");
    line_malformed(9, "setting box_max 2", "page has no line `setting box_max`");
    line_malformed(9, "room ink 2", "page has no line `room ink`");
    line_malformed(9, "lanegravel-page 1", "page has no line `lanegravel-page`");
    line_malformed(9, "pieces 0", "a second line `pieces`, after line 8");
    let twice = "setting box_min_xh 3ff0000000000000";
    line_malformed(
        40,
        twice,
        "a second line `setting box_min_xh`, after line 27",
    );
    let two_rooms = page_with(9, "room boxes 1\nroom boxes 1");
    malformed(
        &two_rooms,
        "line 10: a second line `room boxes`, after line 9",
    );
    let missing = "line 44: missing before `end`: ";
    malformed(&page_with(9, ""), &format!("{missing}glyphs"));
    malformed(
        &page_with(43, "#"),
        &format!("{missing}setting grid_min_boxes"),
    );
    let two = page_with(9, "").replace("dpi 300", "");
    malformed(&two, &format!("{missing}dpi, glyphs"));
}

#[test]
fn lines_of_other_calls() {
    let other = |call: &str, line: &str| {
        let key = line.rsplit_once(' ').expect("a key and a value").0;
        let message = format!("line 3: call {call} has no line `{key}`");
        call_malformed(&format!("call {call}\n{line}\nend"), &message);
    };
    other("sum", "shear 0");
    other("sum", "call sum");
    other("sum", "room levelled 4");
    other("level", "room tables 4");
    other("level", "setting box_min_xh 3ff0000000000000");
    other("unlevel", "gray 0");
    other("unlevel", "room levelled 4");
    other("level", "raster_file scan.pgm");
    other("map", "gray 0");
    other("segments", "room tables 4");
    other("tables", "levelled 4");
    other("boxes", "room index_glyphs 4");
    other("grids", "room boxes 4");
}
