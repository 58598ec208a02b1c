//! The questions that are put to a page, in order.

use std::fmt;

/// The first question that a call missed.
#[derive(Clone, Copy, Debug, PartialEq, Eq, PartialOrd, Ord)]
#[repr(u32)]
pub enum Question {
    Sides = 1,
    Scale = 2,
    Lengths = 3,
    Shears = 4,
    Counts = 5,
    Rectangles = 6,
    Finite = 7,
    NotNegative = 8,
    BoxSizes = 9,
    Fractions = 10,
    Minimums = 11,
    Caps = 12,
    FreeRules = 13,
    Room = 14,
    Evidence = 15,
}

/// Every question, in the order in which they are put.
pub const QUESTIONS: [Question; 15] = [
    Question::Sides,
    Question::Scale,
    Question::Lengths,
    Question::Shears,
    Question::Counts,
    Question::Rectangles,
    Question::Finite,
    Question::NotNegative,
    Question::BoxSizes,
    Question::Fractions,
    Question::Minimums,
    Question::Caps,
    Question::FreeRules,
    Question::Room,
    Question::Evidence,
];

impl Question {
    /// The question of this number; none for 0 and past the last.
    pub fn numbered(number: u32) -> Option<Question> {
        QUESTIONS.into_iter().find(|q| q.number() == number)
    }

    pub fn number(self) -> u32 {
        self as u32
    }

    /// What is asked, in words.
    pub fn asks(self) -> &'static str {
        match self {
            Question::Sides => {
                "are the sides of the page and of the levelled picture 1 to 8,192, and is the page \
                 no larger than the picture either way?"
            }
            Question::Scale => "is the dpi not 0, and the x-height above 0 and at most 4,096?",
            Question::Lengths => {
                "have the grey page, the ink mask and both shear tables the lengths that the sides ask for?"
            }
            Question::Shears => {
                "is every shear from 0 to what keeps the page's pixels inside the levelled picture?"
            }
            Question::Counts => {
                "are there at most 4,096 pieces and 16,384 glyph boxes, with four numbers each?"
            }
            Question::Rectangles => {
                "is every piece and every glyph box ordered, and inside the levelled picture?"
            }
            Question::Finite => "is every float setting finite, and from -1,000,000 to 1,000,000?",
            Question::NotNegative => "are the eight settings for lengths not below 0?",
            Question::BoxSizes => "is box_max_xh at least box_min_xh?",
            Question::Fractions => {
                "are the five settings for parts from 0 to 1, and box_tolerance_px at most 3?"
            }
            Question::Minimums => {
                "are table_min_horizontal and table_min_vertical at least 1, and grid_min_boxes at least 2?"
            }
            Question::Caps => "are llr_clip and group_cap finite, and from 0 to 1,000,000?",
            Question::FreeRules => "is min_free_rules at least 1?",
            Question::Room => "has every lent list the room that the page needs?",
            Question::Evidence => "is every number of the findings' evidence finite?",
        }
    }
}

/// Nothing for 0, and otherwise the question of this number.
pub fn accepted(number: u32) -> Result<(), Question> {
    match number {
        0 => Ok(()),
        _ => Err(Question::numbered(number).expect("the library's numbers are those of questions")),
    }
}

impl fmt::Display for Question {
    fn fmt(&self, out: &mut fmt::Formatter) -> fmt::Result {
        write!(out, "question {} is missed: {}", self.number(), self.asks())
    }
}

impl std::error::Error for Question {}
