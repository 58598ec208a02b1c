//! What was found, drawn over the page: one SVG file that any browser opens.

mod deflate;
mod panel;
mod png;
mod shapes;

use crate::found::Found;
use shapes::Drawing;

/// The picture of a page, which is the one of this number.
pub fn svg(found: &Found, number: usize) -> String {
    let drawing = Drawing::new(found);
    let (width, height) = (found.page.width as f64, found.page.height as f64);
    let unit = drawing.unit;
    let (margin, panel) = (24.0 * unit, 400.0 * unit);
    let (full_width, full_height) = (width + panel + 3.0 * margin, height + 2.0 * margin);
    // As large as the screen has room for, whatever the page has of pixels.
    let shown = 1100.0 / full_height.max(1.0);
    let pixels = if shown > 2.0 { "pixelated" } else { "auto" };
    format!(
        "<svg xmlns=\"http://www.w3.org/2000/svg\" viewBox=\"{:.2} {:.2} {full_width:.2} {full_height:.2}\" \
         width=\"{:.0}\" height=\"{:.0}\" font-family=\"Helvetica, Arial, sans-serif\">\n\
         <title>Lanegravel: what was found on page {number}</title>\n\
         <rect x=\"{:.2}\" y=\"{:.2}\" width=\"{full_width:.2}\" height=\"{full_height:.2}\" fill=\"#eceae4\"/>\n\
         <image width=\"{width}\" height=\"{height}\" style=\"image-rendering: {pixels}\" href=\"{}\"/>\n\
         <rect width=\"{width}\" height=\"{height}\" fill=\"none\" stroke=\"#8a8780\" stroke-width=\"{unit:.2}\"/>\n\
         {}{}</svg>\n",
        -margin,
        -margin,
        full_width * shown,
        full_height * shown,
        -margin,
        -margin,
        png::link(found.page, &found.gray),
        drawing.shapes(),
        panel::panel(found, number, width + margin, unit),
    )
}
