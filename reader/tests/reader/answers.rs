//! What the reader answers, writes and leaves unwritten.

use crate::run::run;

const SUM: &str = "lanegravel-call 1\ncall sum\nvalues 1 3ff0000000000000\nend\n";
const ANSWER: &str = "lanegravel-answer 1\naccepted\nsum 3ff0000000000000\nend\n";

#[test]
fn texts_are_answered_in_order() {
    let empty = SUM.replace("1 3ff0000000000000", "0");
    let zero = ANSWER.replace("3ff", "000");
    let (written, failure) = run(&format!("{SUM}{empty}{SUM}"));
    assert_eq!(written, format!("{ANSWER}{zero}{ANSWER}"));
    assert!(failure.is_none());
}

#[test]
fn comments_and_empty_lines_are_passed_over() {
    let spaced = SUM.replace('\n', "\n\n# a comment, with  two spaces \n#\n");
    let (written, failure) = run(&spaced);
    assert_eq!(written, ANSWER);
    assert!(failure.is_none());
}

#[test]
fn every_nan_is_written_alike() {
    for nan in ["fff8000000000000", "7ff0000000000001", "7ff8000000000000"] {
        let (written, _) = run(&SUM.replace("3ff0000000000000", nan));
        assert_eq!(written, ANSWER.replace("3ff0", "7ff8"), "{nan}");
    }
}

#[test]
fn a_malformed_text_stops_the_reader_after_the_answers_before_it() {
    let (written, failure) = run(&format!("{SUM}lanegravel-call 1\ncall sum\nend\n{SUM}"));
    assert_eq!(written, ANSWER);
    let failure = failure.expect("the second text has no values");
    assert_eq!(failure.to_string(), "line 7: missing before `end`: values");
    assert_eq!(failure.status(), 2);
}
