//! For tests alone: the lists of a struct one after the other, to fill them with noise, to lend them an
//! entry short, and to compare every place.

/// How many lists a workspace has, and how many of them are answered in; the work lists follow.
pub const LISTS: usize = 45;
pub const ANSWER_LISTS: usize = 37;

/// A struct of lent lists.
pub trait Lists {
    /// Every list, in the order of the struct.
    fn lists(&mut self) -> Vec<List<'_>>;

    /// Puts noise into every list, the floats of any bit pattern.
    fn fill(&mut self, seed: u64) {
        let mut noise = Noise(seed);
        self.lists().into_iter().for_each(|list| noise.fill(list));
    }
}

/// One lent list.
pub enum List<'a> {
    Bytes(&'a mut Vec<u8>),
    Wholes(&'a mut Vec<u32>),
    Keys(&'a mut Vec<u64>),
    Floats(&'a mut Vec<f64>),
}

macro_rules! from_lists {
    ($($kind:ident($entry:ty),)*) => {
        $(impl<'a> From<&'a mut Vec<$entry>> for List<'a> {
            fn from(list: &'a mut Vec<$entry>) -> Self {
                List::$kind(list)
            }
        })*
    };
}

from_lists! {
    Bytes(u8),
    Wholes(u32),
    Keys(u64),
    Floats(f64),
}

impl List<'_> {
    pub fn count(&self) -> usize {
        match self {
            List::Bytes(list) => list.len(),
            List::Wholes(list) => list.len(),
            List::Keys(list) => list.len(),
            List::Floats(list) => list.len(),
        }
    }

    /// Gives the list this many entries; new ones are 0.
    pub fn resize(&mut self, count: usize) {
        match self {
            List::Bytes(list) => list.resize(count, 0),
            List::Wholes(list) => list.resize(count, 0),
            List::Keys(list) => list.resize(count, 0),
            List::Floats(list) => list.resize(count, 0.0),
        }
    }

    /// Whether two lists have the same entries, floats by their bits.
    pub fn same(&self, other: &List) -> bool {
        match (self, other) {
            (List::Bytes(a), List::Bytes(b)) => a == b,
            (List::Wholes(a), List::Wholes(b)) => a == b,
            (List::Keys(a), List::Keys(b)) => a == b,
            (List::Floats(a), List::Floats(b)) => {
                let bits = |x: &f64| x.to_bits();
                a.iter().map(bits).eq(b.iter().map(bits))
            }
            _ => false,
        }
    }

    /// Every entry as the number that its bits are.
    pub fn bits(&self) -> Vec<u64> {
        match self {
            List::Bytes(list) => list.iter().map(|&x| x.into()).collect(),
            List::Wholes(list) => list.iter().map(|&x| x.into()).collect(),
            List::Keys(list) => list.to_vec(),
            List::Floats(list) => list.iter().map(|x| x.to_bits()).collect(),
        }
    }
}

/// Numbers by splitmix64.
struct Noise(u64);

impl Noise {
    fn next(&mut self) -> u64 {
        self.0 = self.0.wrapping_add(0x9e37_79b9_7f4a_7c15);
        let z = (self.0 ^ (self.0 >> 30)).wrapping_mul(0xbf58_476d_1ce4_e5b9);
        let z = (z ^ (z >> 27)).wrapping_mul(0x94d0_49bb_1331_11eb);
        z ^ (z >> 31)
    }

    fn fill(&mut self, list: List) {
        match list {
            List::Bytes(list) => list.fill_with(|| self.next() as u8),
            List::Wholes(list) => list.fill_with(|| self.next() as u32),
            List::Keys(list) => list.fill_with(|| self.next()),
            List::Floats(list) => list.fill_with(|| f64::from_bits(self.next())),
        }
    }
}
