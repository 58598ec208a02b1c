//! The form: what stands on a questionnaire, section by section from the top.

use super::random::Random;
use super::sheet::{Mark, Sheet};

const LEFT: u32 = 90;
const RIGHT: u32 = 1150;

const TITLES: [&str; 4] = [
    "Household questionnaire",
    "Survey of time use",
    "Travel diary, part 1",
    "Housing and health survey",
];

const HEADS: [&str; 7] = ["Born", "Work", "School", "Hours", "Trips", "Town", "Tongue"];

const QUESTIONS: [&str; 12] = [
    "Do you own a bicycle?",
    "Did you work for pay in the last week?",
    "Is there a garden to the house?",
    "Do you use a library?",
    "Did you move in the last five years?",
    "Do you keep a dog or a cat?",
    "Is your home heated with wood?",
    "Did you see a doctor this month?",
    "Do you look after a child?",
    "Do you have a reading lamp?",
    "Did you travel abroad this year?",
    "Do you sing in a choir?",
];

const MATTERS: [&str; 9] = [
    "your work",
    "your way to work",
    "the street you live in",
    "your neighbours",
    "buses and trains",
    "the schools nearby",
    "your sleep",
    "the shops",
    "quiet at night",
];

const ITEMS: [&str; 6] = ["Rent", "Heating", "Food", "Fares", "Books", "Repairs"];

/// Everything on the sheet, top to bottom, then what befell it.
pub fn draw(sheet: &mut Sheet) {
    let title = TITLES[sheet.random.below(4) as usize];
    sheet.write(LEFT, 70, 4, title);
    sheet.write(
        LEFT,
        116,
        2,
        "Please use a dark pen, and tick one box in each row.",
    );
    sheet.rule(LEFT, RIGHT, 146, true);
    let mut folds = Vec::new();
    let mut top = people(sheet, 178);
    folds.push(top + 26);
    top = yes_or_no(sheet, top + 52);
    folds.push(top + 26);
    top = satisfied(sheet, top + 52);
    folds.push(top + 26);
    top = amounts(sheet, top + 52);
    signature(sheet, (top + 110).max(1560));
    let fold = folds[sheet.random.below(3) as usize];
    sheet.fold(0, 1238, fold);
    stains(sheet);
}

/// A heading with its letter.
fn heading(sheet: &mut Sheet, y: u32, words: &str) {
    sheet.write(LEFT, y, 3, words);
}

/// A table of the people in the household, filled in by hand.
fn people(sheet: &mut Sheet, y: u32) -> u32 {
    heading(sheet, y, "A  Who lives here?");
    let (top, rows) = (y + 40, sheet.random.between(5, 7));
    let columns = sheet.random.between(4, 6);
    let first = LEFT + 330;
    let mut lines = vec![LEFT];
    lines.extend((0..columns).map(|k| first + (RIGHT - first) * k / (columns - 1)));
    ruled(sheet, &lines, top, rows, 40);
    let mut heads = HEADS;
    sheet.random.shuffle(&mut heads);
    sheet.write(LEFT + 14, top + 14, 2, "Name");
    for (k, head) in heads.iter().enumerate().take(columns as usize - 1) {
        sheet.write(lines[k + 1] + 14, top + 14, 2, head);
    }
    for row in 1..rows - sheet.random.between(0, 2) {
        for cell in 0..columns as usize {
            let width = (lines[cell + 1] - lines[cell]) * sheet.random.between(3, 7) / 10;
            sheet.handwriting(lines[cell] + 16, top + row * 40 + 9, width, 22);
        }
    }
    top + rows * 40
}

/// The rules of a table: a vertical at each of these places, and so many rows of this height.
fn ruled(sheet: &mut Sheet, columns: &[u32], top: u32, rows: u32, each: u32) {
    let (left, right) = (columns[0], columns[columns.len() - 1]);
    for row in 0..=rows {
        sheet.rule(left, right, top + row * each, true);
    }
    for column in columns {
        sheet.rule(top, top + rows * each, *column, false);
    }
}

/// Questions with two boxes each.
fn yes_or_no(sheet: &mut Sheet, y: u32) -> u32 {
    heading(sheet, y, "B  Yes or no?");
    let columns = [930 + sheet.random.below(8), 1060 + sheet.random.below(8)];
    sheet.write(columns[0] - 8, y + 10, 2, "yes");
    sheet.write(columns[1] - 2, y + 10, 2, "no");
    let mut questions = QUESTIONS;
    sheet.random.shuffle(&mut questions);
    let rows = sheet.random.between(6, 8);
    asked(sheet, y + 48, &questions[..rows as usize], &columns)
}

/// Matters with a scale of five boxes each.
fn satisfied(sheet: &mut Sheet, y: u32) -> u32 {
    heading(sheet, y, "C  How content are you with");
    let first = 690 + sheet.random.below(8);
    let columns: Vec<u32> = (0..5).map(|k| first + 97 * k).collect();
    for (k, column) in (1..).zip(&columns) {
        sheet.write(column + 6, y + 10, 2, &format!("{k}"));
    }
    let mut matters = MATTERS;
    sheet.random.shuffle(&mut matters);
    let rows = sheet.random.between(5, 6);
    asked(sheet, y + 48, &matters[..rows as usize], &columns)
}

/// A row of boxes for each question, one of them marked now and then.
fn asked(sheet: &mut Sheet, y: u32, questions: &[&str], columns: &[u32]) -> u32 {
    for (row, question) in (0..).zip(questions) {
        let top = y + 40 * row;
        sheet.write(LEFT + 20, top + 4, 2, &format!("{}. {question}", row + 1));
        let chosen = sheet.random.below(columns.len() as u32 + 1) as usize;
        for (k, column) in columns.iter().enumerate() {
            let mark = match (k == chosen, sheet.random.once_in(2)) {
                (false, _) => Mark::None,
                (true, false) => Mark::Tick,
                (true, true) => Mark::Cross,
            };
            let x = column + sheet.random.below(2);
            sheet.answer_box(x, top, 24, mark);
        }
    }
    y + 40 * questions.len() as u32
}

/// A small table of amounts, and beside it a box that stands alone.
fn amounts(sheet: &mut Sheet, y: u32) -> u32 {
    heading(sheet, y, "D  What did you spend?");
    let (top, rows) = (y + 40, sheet.random.between(4, 5));
    let lines = [LEFT, LEFT + 230, LEFT + 400, LEFT + 570];
    ruled(sheet, &lines, top, rows, 36);
    let mut items = ITEMS;
    sheet.random.shuffle(&mut items);
    for (row, item) in (0..rows).zip(items) {
        sheet.write(LEFT + 14, top + row * 36 + 12, 2, item);
        for column in [1, 2] {
            if !sheet.random.once_in(3) {
                let digits = format!("{}", sheet.random.between(3, 980));
                sheet.write(lines[column] + 30, top + row * 36 + 12, 2, &digits);
            }
        }
    }
    let mark = if sheet.random.once_in(2) {
        Mark::Cross
    } else {
        Mark::None
    };
    sheet.answer_box(752, top + 30, 24, mark);
    sheet.write(792, top + 34, 2, "I would like a copy");
    top + rows * 36
}

/// Two lines at the foot of the sheet.
fn signature(sheet: &mut Sheet, y: u32) {
    sheet.rule(LEFT, LEFT + 300, y, true);
    sheet.rule(620, RIGHT, y, true);
    sheet.write(LEFT, y + 12, 2, "Date");
    sheet.write(620, y + 12, 2, "Signature");
    sheet.handwriting(LEFT + 30, y - 38, 170, 26);
    sheet.handwriting(680, y - 46, 300, 36);
}

/// Blots, specks and the ring of a cup.
fn stains(sheet: &mut Sheet) {
    let x = sheet.random.between(850, 1050);
    let y = sheet.random.between(1330, 1500);
    sheet.ring(x, y, 95);
    for _ in 0..sheet.random.between(3, 6) {
        let (x, y) = anywhere(&mut sheet.random);
        let radius = 3.0 + 7.0 * sheet.random.part();
        sheet.blot(x, y, radius);
    }
    for _ in 0..sheet.random.between(30, 60) {
        let (x, y) = anywhere(&mut sheet.random);
        sheet.blot(x, y, 0.8);
    }
}

fn anywhere(random: &mut Random) -> (u32, u32) {
    (random.between(30, 1200), random.between(30, 1700))
}
