//! Pages that are answered: the lines in their order, with the closed sets and without, and the room.

use lanegravel_reader::answer::Floats;
use lanegravel_reader::files::Context;
use lanegravel_reader::run::Wanted;

use crate::run::{page, run, run_for};

/// The page of two pixels, without its miss. Its one piece is the whole picture, a ruling that is free:
/// its contrast is 255, as there is no paper beside it, less the mean of 10 and 255.
fn accepted() -> Vec<String> {
    let mut lines = page();
    lines[6] = "shear_x 2 0 0".into();
    lines[40] = "setting min_free_rules 1".into();
    lines
}

const ANSWER: &str = "lanegravel-answer 1\naccepted\nlevelled 4 374370cf64d8162c\nrulings 1\n\
    ruling 0 0 1 1 0 405ea00000000000\nprinted 1\nfaint 0\ntables 0\nfree 1 0\nboxes 0\ngrids 0\n\
    counts 1 1 0 0 0 0\nfindings 1\nfinding 17 0 0 1 0 4000000000000000 1 0 2\n\
    evidence 3ff0000000000000 0000000000000000 3ff0000000000000\n\
    evidence 405ea00000000000 3ff0000000000000 0000000000000000\n";

const SETS: &str = "piecesets 1\npieceset 1 0\nprintedsets 1\nprintedset 1 0\nboxsets 0\n\
    readingorders 0\n";

#[test]
fn a_page_is_answered() {
    let text = accepted().join("\n") + "\n";
    let (written, failure) = run(&(text.clone() + &text));
    assert_eq!(written, format!("{ANSWER}end\n{ANSWER}end\n"));
    assert!(failure.is_none());
    let wanted = Wanted {
        sets: true,
        ..Wanted::default()
    };
    let (written, failure) = run_for(&text, wanted, &Context::default());
    assert_eq!(written, format!("{ANSWER}{SETS}end\n"));
    assert!(failure.is_none());
}

#[test]
fn each_room_is_asked_for() {
    for (room, refused) in [
        ("levelled 4", false),
        ("levelled 3", true),
        ("levelled 5", true),
        ("rulings 0", true),
        ("tables 0", true),
        ("findings 0", true),
        ("index_pieces 0", true),
        ("rulings 9", false),
        ("tables 18446744073709551615", false),
        ("boxes 0", false),
        ("index_glyphs 0", false),
    ] {
        let mut lines = accepted();
        lines.insert(1, format!("room {room}"));
        let (written, _) = run(&(lines.join("\n") + "\n"));
        let expected = if refused {
            "lanegravel-answer 1\nrefused 14\nend\n".into()
        } else {
            format!("{ANSWER}end\n")
        };
        assert_eq!(written, expected, "{room}");
    }
}

#[test]
fn floats_are_written_as_decimals_where_that_is_wanted() {
    let wanted = Wanted {
        floats: Floats::Decimal,
        ..Wanted::default()
    };
    let text = accepted().join("\n") + "\n";
    let (written, _) = run_for(&text, wanted, &Context::default());
    assert!(written.contains("\nruling 0 0 1 1 0 122.5\n"), "{written}");
    assert!(written.contains("\nfinding 17 0 0 1 0 2.0 1 0 2\nevidence 1.0 0.0 1.0\n"));
    assert!(written.contains("\nlevelled 4 374370cf64d8162c\n"));
}

#[test]
fn lists_past_every_limit_are_answered_by_their_questions() {
    for (line, text, number) in [
        (5, format!("shear 10000{}", " 0".repeat(10_000)), 3),
        (7, format!("pieces 20000{}", " 0".repeat(20_000)), 5),
        (8, format!("glyphs 70000{}", " 0".repeat(70_000)), 5),
    ] {
        let mut lines = accepted();
        lines[line] = text;
        let (written, _) = run(&(lines.join("\n") + "\n"));
        let expected = format!("lanegravel-answer 1\nrefused {number}\nend\n");
        assert_eq!(written, expected, "line {line}");
    }
}
