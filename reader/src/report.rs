//! What was found, for people: in words, and numbers to a few digits.

use crate::answer::Refused;
use crate::card::{self, capitalised};
use crate::found::{Facts, Finding, Found, Grid, Marked};
use crate::rect::Rect;

/// The report of a page, which is the text of this number.
pub fn page(text: usize, outcome: Result<&Found, &Refused>) -> String {
    match outcome {
        Ok(found) => accepted(text, found),
        Err(refused) => format!("Text {text}, a page: {}", refusal(*refused)),
    }
}

/// The report of a smaller call: the lines of its answer as they are, with decimals.
pub fn call(text: usize, name: &str, outcome: Result<&str, Refused>) -> String {
    match outcome {
        Ok(lines) => {
            let lines: String = lines.lines().map(|line| format!("  {line}\n")).collect();
            format!("Text {text}, {name}: accepted\n{lines}\n")
        }
        Err(refused) => format!("Text {text}, {name}: {}", refusal(refused)),
    }
}

/// The question that was missed, and what to do.
fn refusal(Refused(number): Refused) -> String {
    let Some(entry) = card::numbered(number) else {
        return format!("refused, number {number}\n\n");
    };
    format!(
        "refused, question {number}\n  Asked:       {}\n  A no means:  {}\n  What to do:  {}\n\n",
        capitalised(entry.asks),
        entry.means,
        entry.to_do
    )
}

fn accepted(text: usize, found: &Found) -> String {
    let (width, height) = (found.page.width, found.page.height);
    let inches = |pixels: usize| pixels as f64 / f64::from(found.dpi);
    let mut report = format!(
        "Text {text}, a page: accepted\n  {width} by {height} pixels at {} dpi, {:.1} by {:.1} in\n\n",
        found.dpi,
        inches(width),
        inches(height)
    );
    if found.findings.is_empty() {
        report += "  Nothing was found.\n";
    }
    let mut grids = found.grids_as_found().into_iter();
    for (k, finding) in found.findings.iter().enumerate() {
        report += &format!("  {}. {}\n", k + 1, headline(finding));
        report += &format!("     {}\n", place(finding.rect));
        report += &format!("     {}\n", scores(finding));
        if matches!(finding.facts, Facts::Grid { .. }) {
            report += &grids
                .next()
                .map(|grid| answers(found, grid))
                .unwrap_or_default();
        }
    }
    report + "\n" + &counts(found) + "\n"
}

/// What it is, and its facts.
pub fn headline(finding: &Finding) -> String {
    match finding.facts {
        Facts::Table {
            rows,
            columns,
            rulings,
        } => format!(
            "Table: {} × {}, {}",
            of(rows, "row"),
            of(columns, "column"),
            of(rulings, "ruling")
        ),
        Facts::FreeRules {
            horizontal,
            vertical,
            longest,
        } => format!(
            "Free rules: {horizontal} horizontal, {vertical} vertical, the longest {longest} pixels"
        ),
        Facts::Grid { boxes, ticked } => {
            format!("Grid: {}, {ticked} ticked", of(boxes, "box"))
        }
        Facts::Fold { direction, length } => {
            format!("Fold: {}, {length:.2} in long", way(direction))
        }
    }
}

/// The name of a direction.
pub fn way(direction: u32) -> &'static str {
    match direction {
        0 => "horizontal",
        _ => "vertical",
    }
}

/// So many of them, in words that agree.
fn of(count: u32, noun: &str) -> String {
    let ending = match (count, noun.ends_with('x')) {
        (1, _) => "",
        (_, true) => "es",
        (_, false) => "s",
    };
    format!("{count} {noun}{ending}")
}

/// Where it lies on the page.
pub fn place([x0, y0, x1, y1]: Rect) -> String {
    let (width, height) = (x1 - x0 + 1, y1 - y0 + 1);
    format!("on the page from ({x0}, {y0}) to ({x1}, {y1}): {width} by {height} pixels")
}

/// The log odds, and what the evidence was.
pub fn scores(finding: &Finding) -> String {
    let log_odds = finding.log_odds;
    let second = finding.second.map_or(0.0, |second| second.value);
    let evidence = match finding.facts {
        Facts::Table { .. } => format!("{:.1} % of the ends of rulings joined", 100.0 * second),
        Facts::FreeRules { .. } => format!("mean contrast {second:.1}"),
        Facts::Grid { .. } => format!("edges {:.1} % covered", 100.0 * second),
        Facts::Fold { .. } => {
            let (contrast, printed) = (finding.first.value, finding.first.threshold);
            format!("contrast {contrast:.1}, printed from {printed:.1} on")
        }
    };
    format!("log odds {log_odds:.3}; {evidence}")
}

/// The boxes of a grid in reading order, with a new line where a box stands below the line before.
fn answers(found: &Found, grid: &Grid) -> String {
    let mut lines = String::from("     in reading order:");
    let mut bottom = 0;
    for (k, marked) in found.read_out(grid).enumerate() {
        if k == 0 || marked.rect[1] > bottom {
            bottom = marked.rect[3];
            lines += "\n      ";
        }
        lines += if marked.mark == 0 { " [ ]" } else { " [x]" };
    }
    lines + "\n"
}

fn counts(found: &Found) -> String {
    let [rulings, printed, faint, tables, boxes, grids] = found.counts();
    let ticked = |boxes: &[Marked]| boxes.iter().filter(|marked| marked.mark != 0).count();
    let mut in_grids = vec![false; found.boxes.len()];
    for box_index in found.grids.iter().flat_map(|grid| &grid.members) {
        in_grids[*box_index as usize] = true;
    }
    let outside = in_grids.iter().filter(|inside| !**inside).count();
    format!(
        "  In all: {} ({printed} printed, {faint} faint), {}, {} free;\n  \
         {} ({} ticked, {outside} outside the grids), {}.\n",
        of(rulings, "ruling"),
        of(tables, "table"),
        found.free.len(),
        of(boxes, "box"),
        ticked(&found.boxes),
        of(grids, "grid"),
    )
}
