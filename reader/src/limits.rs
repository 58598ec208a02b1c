//! How much of a text is held, from document 01's limits. A list that is longer than any accepted
//! page's is held to one entry past the limit: the library then misses the same question.

/// The longest side of a page or a levelled picture.
pub const SIDE: usize = 8192;
pub const PLACES: usize = SIDE * SIDE;
pub const PIECES: usize = 4096;
pub const GLYPHS: usize = 16_384;

/// No question bounds the rectangles of `map` and the values of `sum`, so here the form does.
pub const RECTS: usize = 1 << 20;
pub const VALUES: usize = 1 << 24;
