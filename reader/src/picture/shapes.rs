//! The shapes over the page. A levelled rectangle is drawn by its four corners, each led to the page
//! by `rect_to_page`, so that it lies as the sheet lay in the scanner.

use std::collections::BTreeMap;

use crate::found::{Facts, Finding, Found, Grid, Marked, Ruling};
use crate::rect::Rect;
use crate::report::{headline, place, scores, way};

pub const TABLE: &str = "#0072b2";
pub const FREE: &str = "#d55e00";
pub const GRID: &str = "#00845f";
pub const FOLD: &str = "#a0439c";

pub struct Drawing<'a> {
    found: &'a Found,
    /// The levelled rectangle of each table, and of each faint ruling, by its rectangle on the page,
    /// which its finding has.
    tables: BTreeMap<Rect, Rect>,
    faint: BTreeMap<Rect, Rect>,
    /// A thousandth of the longer side: what line widths and letters are measured in.
    pub unit: f64,
}

impl<'a> Drawing<'a> {
    pub fn new(found: &'a Found) -> Self {
        let longer = found.page.width.max(found.page.height);
        let by_page = |rect: Rect| (found.map.on_page(rect), rect);
        let faint = found.faint.iter().map(|k| found.rulings[*k as usize].rect);
        Drawing {
            found,
            tables: found.tables.iter().map(|t| by_page(t.rect)).collect(),
            faint: faint.map(by_page).collect(),
            unit: longer as f64 / 1000.0,
        }
    }

    /// All shapes, the small ones above the large ones, and the numbers of the findings on top.
    pub fn shapes(&self) -> String {
        let found = self.found;
        let mut shapes = String::new();
        let mut tags = String::new();
        let mut grids = found.grids_as_found().into_iter();
        for (number, finding) in (1..).zip(&found.findings) {
            shapes += &match finding.facts {
                Facts::Table { .. } => self.table(finding),
                Facts::FreeRules { .. } => self.free_rules(finding),
                Facts::Fold { .. } => self.fold(finding),
                Facts::Grid { .. } => {
                    let grid = grids.next();
                    grid.map(|grid| self.grid(finding, grid))
                        .unwrap_or_default()
                }
            };
            tags += &self.tag(number, finding);
        }
        shapes + &self.lone_boxes() + &tags
    }

    /// The corners on the page of a levelled rectangle, clockwise from its upper left.
    fn corners(&self, [x0, y0, x1, y1]: Rect) -> [[f64; 2]; 4] {
        let corner = |x: u32, y: u32, right: f64, below: f64| {
            let [x, y, ..] = self.found.map.on_page([x, y, x, y]);
            [f64::from(x) + right, f64::from(y) + below]
        };
        [
            corner(x0, y0, 0.0, 0.0),
            corner(x1, y0, 1.0, 0.0),
            corner(x1, y1, 1.0, 1.0),
            corner(x0, y1, 0.0, 1.0),
        ]
    }

    /// A polygon with these attributes and facts to read when the pointer rests on it.
    fn polygon(&self, rect: Rect, attributes: &str, title: &str) -> String {
        let points = self
            .corners(rect)
            .map(|[x, y]| format!("{x},{y}"))
            .join(" ");
        format!("<polygon points=\"{points}\" {attributes}><title>{title}</title></polygon>\n")
    }

    /// The frame of a table, and its rulings.
    fn table(&self, finding: &Finding) -> String {
        let Some(rect) = self.tables.get(&finding.rect) else {
            return String::new();
        };
        let frame = self.stroke(TABLE, 2.2) + &format!(" fill=\"{TABLE}\" fill-opacity=\"0.07\"");
        let mut shapes = self.polygon(*rect, &frame, &facts(finding));
        let line = format!("fill=\"{TABLE}\" fill-opacity=\"0.55\"");
        for ruling in self.rulings_inside(*rect) {
            shapes += &self.polygon(ruling.rect, &line, &ruling_facts(ruling));
        }
        shapes
    }

    /// The printed rulings inside a table's rectangle that are not free.
    fn rulings_inside(&self, [x0, y0, x1, y1]: Rect) -> impl Iterator<Item = &Ruling> {
        let found = self.found;
        let mut free = vec![false; found.printed.len()];
        found.free.iter().for_each(|k| free[*k as usize] = true);
        let joined = found.printed.iter().zip(free).filter(|(_, free)| !free);
        let rulings = joined.map(|(k, _)| &found.rulings[*k as usize]);
        rulings.filter(move |ruling| {
            let [a0, b0, a1, b1] = ruling.rect;
            a0 >= x0 && b0 >= y0 && a1 <= x1 && b1 <= y1
        })
    }

    fn free_rules(&self, finding: &Finding) -> String {
        let line = self.stroke(FREE, 2.6) + &format!(" fill=\"{FREE}\" stroke-opacity=\"0.75\"");
        let title = |ruling| format!("{}\n{}", facts(finding), ruling_facts(ruling));
        let rulings = self.found.free_rulings();
        rulings
            .map(|ruling| self.polygon(ruling.rect, &line, &title(ruling)))
            .collect()
    }

    /// The faint ruling that the finding was made from.
    fn fold(&self, finding: &Finding) -> String {
        let Some(rect) = self.faint.get(&finding.rect) else {
            return String::new();
        };
        let (dash, gap) = (14.0 * self.unit, 6.0 * self.unit);
        let line = self.stroke(FOLD, 3.0)
            + &format!(" stroke-dasharray=\"{dash:.2} {gap:.2}\"")
            + &format!(" fill=\"{FOLD}\" fill-opacity=\"0.3\"");
        self.polygon(*rect, &line, &facts(finding))
    }

    /// The outline of a grid, its boxes, and the way through them in reading order.
    fn grid(&self, finding: &Finding, grid: &Grid) -> String {
        let wide = 7.0 * self.unit;
        let [x0, y0, x1, y1] = finding.rect.map(f64::from);
        let outline = self.stroke(GRID, 1.4);
        let mut shapes = format!(
            "<rect x=\"{:.2}\" y=\"{:.2}\" width=\"{:.2}\" height=\"{:.2}\" rx=\"{wide:.2}\" {outline} \
             fill=\"{GRID}\" fill-opacity=\"0.06\"><title>{}</title></rect>\n",
            x0 - wide,
            y0 - wide,
            x1 - x0 + 1.0 + 2.0 * wide,
            y1 - y0 + 1.0 + 2.0 * wide,
            facts(finding)
        );
        let boxes: Vec<&Marked> = self.found.read_out(grid).collect();
        for (k, marked) in boxes.iter().enumerate() {
            let of = format!("box {} of {} in reading order", k + 1, boxes.len());
            shapes += &self.marked(marked, &of);
        }
        shapes + &self.way(&boxes)
    }

    /// A thin line from box to box, from a dot at the first.
    fn way(&self, boxes: &[&Marked]) -> String {
        let centres: Vec<[f64; 2]> = boxes
            .iter()
            .map(|marked| self.centre(marked.rect))
            .collect();
        let points: Vec<String> = centres.iter().map(|[x, y]| format!("{x},{y}")).collect();
        let line = self.stroke(GRID, 0.9);
        let [x, y] = centres.first().copied().unwrap_or_default();
        format!(
            "<polyline points=\"{}\" {line} fill=\"none\" stroke-opacity=\"0.7\" pointer-events=\"none\"/>\n\
             <circle cx=\"{x}\" cy=\"{y}\" r=\"{:.2}\" fill=\"{GRID}\" pointer-events=\"none\"/>\n",
            points.join(" "),
            2.4 * self.unit
        )
    }

    fn centre(&self, rect: Rect) -> [f64; 2] {
        let corners = self.corners(rect);
        [0, 1].map(|c| corners.iter().map(|corner| corner[c]).sum::<f64>() / 4.0)
    }

    /// A box: filled, with a tick beside it, where it is ticked.
    fn marked(&self, marked: &Marked, of: &str) -> String {
        let (says, filled) = match marked.mark {
            0 => ("empty", 0.0),
            _ => ("ticked", 0.45),
        };
        let [x0, y0, x1, y1] = self.found.map.on_page(marked.rect);
        let title = format!(
            "{says}: {of}\nfrom ({x0}, {y0}) to ({x1}, {y1})\nedges {:.1} % covered",
            100.0 * marked.coverage
        );
        let frame = self.stroke(GRID, 2.0) + &format!(" fill=\"{GRID}\" fill-opacity=\"{filled}\"");
        let shape = self.polygon(marked.rect, &frame, &title);
        if marked.mark == 0 {
            return shape;
        }
        let ([x, y], u) = (self.centre(marked.rect), self.unit);
        let half = f64::from(x1 - x0 + 1) / 2.0;
        shape
            + &format!(
                "<path d=\"M{:.1} {:.1}l{:.1} {:.1}l{:.1} {:.1}\" fill=\"none\" stroke=\"#ffffff\" \
                 stroke-width=\"{:.2}\" pointer-events=\"none\"/>\n",
                x - 0.5 * half,
                y,
                0.4 * half,
                0.45 * half,
                0.65 * half,
                -0.95 * half,
                2.2 * u
            )
    }

    /// Boxes that are in no grid.
    fn lone_boxes(&self) -> String {
        let found = self.found;
        let mut alone = vec![true; found.boxes.len()];
        let members = found.grids.iter().flat_map(|grid| &grid.members);
        members.for_each(|k| alone[*k as usize] = false);
        let boxes = found.boxes.iter().zip(alone).filter(|(_, alone)| *alone);
        boxes
            .map(|(marked, _)| self.marked(marked, "a box outside the grids"))
            .collect()
    }

    /// The number of a finding and its size in a few words, at its right end, where forms have the
    /// least to read: above it, but below a grid, whose columns have their heads above.
    fn tag(&self, number: usize, finding: &Finding) -> String {
        let (colour, words) = match finding.facts {
            Facts::Table { rows, columns, .. } => (TABLE, format!("{rows} × {columns}")),
            Facts::FreeRules { .. } => (FREE, "free rules".into()),
            Facts::Grid { boxes, ticked } => (GRID, format!("{boxes} boxes, {ticked} ticked")),
            Facts::Fold { .. } => (FOLD, "fold".into()),
        };
        let words = format!("{number}  {words}");
        let u = self.unit;
        let (width, height) = ((6.6 * words.chars().count() as f64 + 12.0) * u, 17.0 * u);
        let [_, top, right, bottom] = finding.rect.map(f64::from);
        let (page_width, page_height) =
            (self.found.page.width as f64, self.found.page.height as f64);
        let x = (right + 1.0).min(page_width) - width;
        let y = if colour == GRID {
            (bottom + 9.0 * u).min(page_height - height)
        } else {
            top - height - 1.5 * u
        };
        let (x, y) = (x.max(0.0), y.max(0.0));
        format!(
            "<g pointer-events=\"none\"><rect x=\"{x:.2}\" y=\"{y:.2}\" width=\"{width:.2}\" \
             height=\"{height:.2}\" rx=\"{:.2}\" fill=\"{colour}\"/><text x=\"{:.2}\" y=\"{:.2}\" \
             font-size=\"{:.2}\" fill=\"#ffffff\" text-anchor=\"middle\" \
             xml:space=\"preserve\">{words}</text></g>\n",
            3.0 * u,
            x + width / 2.0,
            y + 12.5 * u,
            12.0 * u
        )
    }

    fn stroke(&self, colour: &str, wide: f64) -> String {
        format!(
            "stroke=\"{colour}\" stroke-width=\"{:.2}\"",
            wide * self.unit
        )
    }
}

fn facts(finding: &Finding) -> String {
    let place = place(finding.rect);
    format!("{}\n{place}\n{}", headline(finding), scores(finding))
}

fn ruling_facts(ruling: &Ruling) -> String {
    let way = way(ruling.direction);
    format!("{way} ruling, contrast {:.1}", ruling.contrast)
}
