//! Lines whose values are not of the form.

use crate::run::{call_malformed, line_malformed, page_with};

#[test]
fn words() {
    let spaces = "fields are separated by single spaces";
    line_malformed(9, " glyphs 0", spaces);
    line_malformed(9, " ", spaces);
    line_malformed(9, "glyphs  0", &format!("glyphs: {spaces}"));
    line_malformed(9, "glyphs 0 ", &format!("glyphs: {spaces}"));
    line_malformed(12, "gray 0 ", &format!("gray: {spaces}"));
    line_malformed(9, "glyphs", "glyphs: the line ends too early");
    line_malformed(2, "page 2", "page: the line ends too early");
    line_malformed(14, "setting", "the line ends too early");
    line_malformed(2, "page 2 1 1", "page: the line should end before `1`");
    line_malformed(12, "gray 1 0a ff", "gray: the line should end before `ff`");
    line_malformed(
        12,
        "gray 0 0a",
        "gray: 0 bytes announced, 2 hex digits there",
    );
}

#[test]
fn whole_numbers() {
    let side = "is not an unsigned whole number of 64 bits";
    line_malformed(
        2,
        "page 18446744073709551616 1",
        &format!("page: `18446744073709551616` {side}"),
    );
    line_malformed(2, "page -1 1", &format!("page: `-1` {side}"));
    line_malformed(2, "page +1 1", &format!("page: `+1` {side}"));
    line_malformed(2, "page 0x1 1", &format!("page: `0x1` {side}"));
    line_malformed(2, "page 2 1\r", &format!("page: `1\\r` {side}"));
    line_malformed(
        4,
        "dpi 65536",
        "dpi: `65536` is not a whole number from 0 to 65535",
    );
    let signed = "is not a signed whole number of 32 bits";
    line_malformed(
        6,
        "shear 1 2147483648",
        &format!("shear: `2147483648` {signed}"),
    );
    line_malformed(
        6,
        "shear 1 -2147483649",
        &format!("shear: `-2147483649` {signed}"),
    );
    line_malformed(6, "shear 1 --1", &format!("shear: `--1` {signed}"));
    line_malformed(6, "shear 1 -", &format!("shear: `-` {signed}"));
    let unsigned = "is not an unsigned whole number of 32 bits";
    line_malformed(
        8,
        "pieces 1 4294967296",
        &format!("pieces: `4294967296` {unsigned}"),
    );
    line_malformed(8, "pieces 1 1.0", &format!("pieces: `1.0` {unsigned}"));
    line_malformed(
        39,
        "setting table_min_horizontal -1",
        &format!("setting table_min_horizontal: `-1` {unsigned}"),
    );
    line_malformed(
        9,
        "room boxes x",
        "room boxes: `x` is not an unsigned whole number of 64 bits",
    );
}

#[test]
fn floats() {
    let none = "is not a float: 16 lowercase hex digits, or a decimal number";
    for word in [
        "inf",
        "NaN",
        "+1.0",
        "1.",
        "0x34000000000000",
        "7FF8000000000000",
        "-",
    ] {
        line_malformed(
            5,
            &format!("xheight {word}"),
            &format!("xheight: `{word}` {none}"),
        );
    }
    line_malformed(
        14,
        "setting merge_across_xh 3ff000000000000g",
        &format!("setting merge_across_xh: `3ff000000000000g` {none}"),
    );
}

#[test]
fn words_that_are_too_long() {
    let long = "1".repeat(1025);
    let start = &long[..40];
    let more = "has more than 1024 characters";
    line_malformed(
        5,
        &format!("xheight {long}"),
        &format!("xheight: `{start}..` {more}"),
    );
    line_malformed(9, &format!("{long} 0"), &format!("`{start}..` {more}"));
    let zeros = format!("dpi {}300", "0".repeat(1021));
    let (written, _) = crate::run::run(&page_with(4, &zeros));
    assert_eq!(written, "lanegravel-answer 1\nrefused 4\nend\n");
}

#[test]
fn lists_that_no_question_bounds() {
    call_malformed(
        "call map\nrects 4194308 0\nend",
        "line 3: rects: 4194308 announced, at most 4194304 may be",
    );
    call_malformed(
        "call sum\nvalues 16777217 0\nend",
        "line 3: values: 16777217 announced, at most 16777216 may be",
    );
}

#[test]
fn counts_of_lists() {
    line_malformed(6, "shear 3 0 1", "shear: 3 announced, 2 there");
    line_malformed(6, "shear 1 0 1", "shear: 1 announced, 2 there");
    let huge = "18446744073709551615";
    line_malformed(
        6,
        &format!("shear {huge} 0"),
        &format!("shear: {huge} announced, 1 there"),
    );
    line_malformed(
        12,
        &format!("gray {huge} 0a"),
        &format!("gray: {huge} bytes announced, 2 hex digits there"),
    );
    line_malformed(
        12,
        "gray 2 0af",
        "gray: 2 bytes announced, 3 hex digits there",
    );
    line_malformed(
        12,
        "gray 1 0af",
        "gray: 1 bytes announced, 3 hex digits there",
    );
    line_malformed(12, "gray 2", "gray: 2 bytes announced, 0 hex digits there");
    line_malformed(12, "gray 2 0aFF", "gray: `F` is not a lowercase hex digit");
    call_malformed(
        "call sum\nvalues 1\nend",
        "line 3: values: 1 announced, 0 there",
    );
    call_malformed(
        "call map\nrects 0\nend",
        "line 3: rects: 0 numbers are not whole rectangles",
    );
    call_malformed(
        "call map\nrects 5 0 0 1 1 0\nend",
        "line 3: rects: 5 numbers are not whole rectangles",
    );
}
