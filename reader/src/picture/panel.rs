//! What stands beside the page: its title, the legend, and the findings in words.

use crate::found::{Facts, Found};
use crate::report::headline;

use super::shapes::{FOLD, FREE, GRID, TABLE};

/// More findings than this are only counted.
const MOST_LISTED: usize = 32;

/// Lines of text below each other.
struct Column {
    svg: String,
    x: f64,
    y: f64,
    unit: f64,
}

impl Column {
    fn text(&mut self, indent: f64, size: f64, colour: &str, words: &str) {
        let u = self.unit;
        self.svg += &format!(
            "<text x=\"{:.2}\" y=\"{:.2}\" font-size=\"{:.2}\" fill=\"{colour}\">{words}</text>\n",
            self.x + indent * u,
            self.y,
            size * u
        );
    }

    fn down(&mut self, by: f64) {
        self.y += by * self.unit;
    }

    /// A patch of this colour with words beside it.
    fn legend(&mut self, colour: &str, dashed: bool, words: &str) {
        let u = self.unit;
        let dashes = if dashed {
            format!(" stroke-dasharray=\"{:.2} {:.2}\"", 6.0 * u, 3.0 * u)
        } else {
            String::new()
        };
        self.svg += &format!(
            "<rect x=\"{:.2}\" y=\"{:.2}\" width=\"{:.2}\" height=\"{:.2}\" fill=\"{colour}\" \
             fill-opacity=\"0.2\" stroke=\"{colour}\" stroke-width=\"{:.2}\"{dashes}/>\n",
            self.x,
            self.y - 12.0 * u,
            24.0 * u,
            14.0 * u,
            2.0 * u
        );
        self.text(36.0, 15.0, "#22211f", words);
        self.down(25.0);
    }
}

pub fn panel(found: &Found, number: usize, x: f64, unit: f64) -> String {
    let mut column = Column {
        svg: String::new(),
        x,
        y: 26.0 * unit,
        unit,
    };
    let (width, height) = (found.page.width, found.page.height);
    column.text(0.0, 26.0, "#22211f", &format!("Page {number}"));
    column.down(26.0);
    let size = format!("{width} by {height} pixels at {} dpi", found.dpi);
    column.text(0.0, 14.0, "#5c5a55", &size);
    column.down(42.0);
    legend(&mut column, found);
    column.down(18.0);
    listed(&mut column, found);
    column.svg
}

fn legend(column: &mut Column, found: &Found) {
    let [_, printed, faint, tables, boxes, grids] = found.counts();
    let ticked = found.boxes.iter().filter(|b| b.mark != 0).count();
    let folds = found.findings.iter();
    let folds = folds
        .filter(|f| matches!(f.facts, Facts::Fold { .. }))
        .count();
    column.legend(TABLE, false, &format!("tables, rows × columns: {tables}"));
    column.legend(GRID, false, &format!("grids of answer boxes: {grids}"));
    column.text(
        36.0,
        13.0,
        "#5c5a55",
        &format!("{boxes} boxes, filled where ticked: {ticked}"),
    );
    column.down(19.0);
    column.text(
        36.0,
        13.0,
        "#5c5a55",
        "thin line from a dot: the reading order",
    );
    column.down(26.0);
    column.legend(FREE, false, &format!("free rules: {}", found.free.len()));
    column.legend(FOLD, true, &format!("folds: {folds}"));
    let rulings = format!("{printed} rulings are printed, {faint} faint");
    column.text(0.0, 13.0, "#5c5a55", &rulings);
    column.down(20.0);
}

/// Each finding with its number and its log odds.
fn listed(column: &mut Column, found: &Found) {
    for (number, finding) in (1..).zip(&found.findings).take(MOST_LISTED) {
        let colour = match finding.facts {
            Facts::Table { .. } => TABLE,
            Facts::FreeRules { .. } => FREE,
            Facts::Grid { .. } => GRID,
            Facts::Fold { .. } => FOLD,
        };
        column.text(
            0.0,
            15.0,
            colour,
            &format!("<tspan font-weight=\"bold\">{number}</tspan>"),
        );
        let (kind, words) = split(&headline(finding));
        column.text(
            26.0,
            15.0,
            colour,
            &format!("<tspan font-weight=\"bold\">{kind}</tspan>"),
        );
        column.down(18.0);
        column.text(26.0, 13.0, "#22211f", &words);
        column.down(17.0);
        let log_odds = format!("log odds {:.3}", finding.log_odds);
        column.text(26.0, 13.0, "#5c5a55", &log_odds);
        column.down(25.0);
    }
    let more = found.findings.len().saturating_sub(MOST_LISTED);
    if more > 0 {
        column.text(26.0, 13.0, "#5c5a55", &format!("and {more} more"));
    }
}

/// The kind of a finding, and the rest of its headline.
fn split(headline: &str) -> (String, String) {
    let (kind, words) = headline.split_once(": ").unwrap_or((headline, ""));
    (kind.into(), words.into())
}
