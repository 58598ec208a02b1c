//! Rectangles: x0, y0, x1, y1, both ends inside.

pub type Rect = [u32; 4];

/// The smallest rectangle around two.
pub fn around(a: Rect, b: Rect) -> Rect {
    [
        a[0].min(b[0]),
        a[1].min(b[1]),
        a[2].max(b[2]),
        a[3].max(b[3]),
    ]
}
