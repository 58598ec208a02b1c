//! The operator's card: what each number means at the desk, and what to do. The one table that the
//! card, the report and docs/FORMAT.md are written from.

use lanegravel_binding::question::{QUESTIONS, Question};

/// What an operator is told of a question that was missed.
pub struct Entry {
    pub number: u32,
    /// The question, in words.
    pub asks: &'static str,
    /// What a no means at the desk.
    pub means: &'static str,
    pub to_do: &'static str,
}

/// What is said of the settings, where a question is about them.
const SETTINGS: &str = "Stop the batch: every sheet will be refused. Have whoever keeps the settings \
    put it right, or take back the last settings that worked.";

fn desk(question: Question) -> (&'static str, &'static str) {
    match question {
        Question::Sides => (
            "The picture is empty or too large, or the levelled picture is smaller than the page.",
            "Check format and resolution of the scanner, and scan again. If it comes back on every \
             sheet, tell the integrator.",
        ),
        Question::Scale => (
            "The scanner did not say its resolution, or no height of letters could be measured, as on \
             a blank sheet.",
            "Look at the sheet. If it is blank, put it with the blanks. If it is printed, check that \
             the scanner hands its dpi over, and scan again.",
        ),
        Question::Lengths => (
            "The parts of the scan do not belong together: it was cut off on its way, or parts of two \
             sheets were mixed.",
            "Scan again. If it comes back, tell the integrator; the sheet is not at fault.",
        ),
        Question::Shears => (
            "The sheet lay further askew than the levelled picture has room for, or the levelling is \
             another sheet's.",
            "Straighten the sheet and scan again. If it comes back, tell the integrator.",
        ),
        Question::Counts => (
            "More rules or more marks than a form has: a dirty glass, a printed photograph, a wrong \
             sheet.",
            "Check that it is the right form, clean the glass, and scan again. If it comes back, key \
             the sheet by hand.",
        ),
        Question::Rectangles => (
            "A rule or a mark is said to lie outside the picture.",
            "Scan again. If it comes back, tell the integrator; the sheet is not at fault.",
        ),
        Question::Finite => (
            "A setting is no number, or is out of all proportion. The sheet is not at fault.",
            SETTINGS,
        ),
        Question::NotNegative => (
            "A length among the settings is below 0. The sheet is not at fault.",
            SETTINGS,
        ),
        Question::BoxSizes => (
            "The settings have the largest answer box smaller than the smallest. The sheet is not at \
             fault.",
            SETTINGS,
        ),
        Question::Fractions => (
            "A part of a whole among the settings is below 0 or above 1, or the tolerance of a box is \
             above 3 pixels. The sheet is not at fault.",
            SETTINGS,
        ),
        Question::Minimums => (
            "The settings would have a table without rules or a grid of one box. The sheet is not at \
             fault.",
            SETTINGS,
        ),
        Question::Caps => (
            "A bound of the scores is below 0, too large or no number. The sheet is not at fault.",
            SETTINGS,
        ),
        Question::FreeRules => (
            "The settings would report loose rules where there are none. The sheet is not at fault.",
            SETTINGS,
        ),
        Question::Room => (
            "The program that calls the reader lends it too little memory for this sheet, or a \
             levelled picture of another size.",
            "Set the sheet aside and go on. Tell the integrator; the sheet is not at fault.",
        ),
        Question::Evidence => (
            "A score came out as no number, which no sheet should make it do.",
            "Key the sheet by hand, and send its page text to the integrator.",
        ),
    }
}

fn entry(question: Question) -> Entry {
    let (means, to_do) = desk(question);
    Entry {
        number: question.number(),
        asks: question.asks(),
        means,
        to_do,
    }
}

/// Every question that has a number, in order.
pub fn entries() -> impl Iterator<Item = Entry> {
    QUESTIONS.into_iter().map(entry)
}

/// The entry of this number, if a question has it.
pub fn numbered(number: u32) -> Option<Entry> {
    Question::numbered(number).map(entry)
}

const HEAD: &str = "\
# Lanegravel: the operator's card

A sheet that is not read comes back with a number. It is the number of the first question that the
sheet, or what was handed over with it, answers with no; later questions were not asked. Look the
number up here. What was read of other sheets is not touched by it.

";

const KINDS: &str = "
Numbers of what is found on a sheet that is read:

| number | what it is |
|---|---|
| 16 | a table: ruled lines that cross or join, with its rows and columns |
| 17 | free rules: printed lines outside every table, as a line to sign on |
| 18 | a grid: answer boxes in rows or columns, and how many of them are ticked |
| 19 | a fold: a long line that is too faint to be printed |
";

/// The card, as docs/CARD.md has it.
pub fn markdown() -> String {
    let mut card = String::from(HEAD);
    card += "| number | question | a no means | what to do |\n|---|---|---|---|\n";
    for entry in entries() {
        let capital = capitalised(entry.asks);
        card += &format!(
            "| {} | {capital} | {} | {} |\n",
            entry.number, entry.means, entry.to_do
        );
    }
    card + KINDS
}

/// The rows of docs/FORMAT.md's table of questions.
pub fn format_rows() -> String {
    let row = |entry: Entry| format!("| {} | {} |\n", entry.number, entry.asks);
    entries().map(row).collect()
}

pub fn capitalised(sentence: &str) -> String {
    let mut letters = sentence.chars();
    let first = letters.next().map(|letter| letter.to_ascii_uppercase());
    first.into_iter().chain(letters).collect()
}

#[cfg(test)]
mod tests {
    use super::{format_rows, markdown};

    #[test]
    fn the_card_in_docs_is_this_one() {
        let stored = include_str!("../../docs/CARD.md");
        assert!(stored == markdown(), "tests/reader/run --write writes it");
    }

    #[test]
    fn the_questions_in_docs_are_these() {
        let format = include_str!("../../docs/FORMAT.md");
        assert!(format.contains(&format_rows()), "{}", format_rows());
    }
}
