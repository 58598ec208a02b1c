//! Runs the reader over texts, and says what it must make of them.

use std::io::BufReader;

use lanegravel_reader::Failure;
use lanegravel_reader::files::Context;
use lanegravel_reader::run::{Run, Wanted};
use lanegravel_reader::settings::{COUNT_SETTINGS, FLOAT_SETTINGS};

/// What the reader writes, and the failure that stops it.
pub fn run(input: &str) -> (String, Option<Failure>) {
    run_for(input, Wanted::default(), &Context::default())
}

/// The same, of what is wanted. The input comes in small parts, so that words lie across their ends.
pub fn run_for(input: &str, wanted: Wanted, context: &Context) -> (String, Option<Failure>) {
    let mut output = Vec::new();
    let parts = BufReader::with_capacity(7, input.as_bytes());
    let failure = Run::new(&mut output, wanted)
        .answer_all(parts, context)
        .err();
    let written = String::from_utf8(output).expect("what is written is UTF-8");
    (written, failure)
}

/// A whole page, which misses question 4. Its line numbers: 2 page, 3 levelled, 4 dpi, 5 xheight, 6 shear, 7 shear_x,
/// 8 pieces, 9 glyphs, 10 llr_clip, 11 group_cap, 12 gray, 13 ink, 14 to 38 the float settings,
/// 39 to 43 the counts, 44 end.
pub fn page() -> Vec<String> {
    let mut lines: Vec<String> = "lanegravel-page 1\npage 2 1\nlevelled 2 2\ndpi 300\n\
        xheight 4034000000000000\nshear 2 0 1\nshear_x 2 0 -1\npieces 4 0 0 1 1\nglyphs 0\n\
        llr_clip 4010000000000000\ngroup_cap 4018000000000000\ngray 2 0aff\nink 4 00010000"
        .lines()
        .map(String::from)
        .collect();
    lines.extend(FLOAT_SETTINGS.map(|name| format!("setting {name} 3ff0000000000000")));
    lines.extend(COUNT_SETTINGS.map(|name| format!("setting {name} 2")));
    lines.push("end".into());
    lines
}

/// The page with one line put in place of another.
pub fn page_with(number: usize, line: &str) -> String {
    let mut lines = page();
    lines[number - 1] = line.into();
    lines.join("\n") + "\n"
}

/// The text is malformed, with this message.
pub fn malformed(input: &str, message: &str) {
    let (written, failure) = run(input);
    let failure = failure.unwrap_or_else(|| panic!("answered, expected: {message}"));
    assert_eq!(failure.to_string(), message, "{input}");
    assert_eq!((failure.status(), &written[..]), (2, ""), "{input}");
}

/// The page is malformed at the line that is put in, with this message.
pub fn line_malformed(number: usize, line: &str, message: &str) {
    malformed(
        &page_with(number, line),
        &format!("line {number}: {message}"),
    );
}

pub fn call_malformed(lines: &str, message: &str) {
    malformed(&format!("lanegravel-call 1\n{lines}\n"), message);
}
