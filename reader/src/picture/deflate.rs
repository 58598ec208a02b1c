//! Compression as zlib's: one block of Huffman codes made for the bytes at hand (RFC 1951, 1950).

/// The longest code that the format has.
const LONGEST: u32 = 15;
/// The symbol behind the last byte.
const END: usize = 256;

/// Bits, the lowest first.
#[derive(Default)]
struct Bits {
    bytes: Vec<u8>,
    waiting: u64,
    count: u32,
}

impl Bits {
    fn put(&mut self, bits: u32, count: u32) {
        self.waiting |= u64::from(bits) << self.count;
        self.count += count;
        while self.count >= 8 {
            self.bytes.push(self.waiting as u8);
            self.waiting >>= 8;
            self.count -= 8;
        }
    }

    fn finish(mut self) -> Vec<u8> {
        self.put(0, 7);
        self.bytes
    }
}

/// The bytes as a zlib stream.
pub fn zlib(bytes: &[u8]) -> Vec<u8> {
    let mut counts = [0; END + 1];
    counts[END] = 1;
    for byte in bytes {
        counts[usize::from(*byte)] += 1;
    }
    let lengths = lengths(counts);
    let codes = codes(&lengths);
    let mut bits = Bits::default();
    bits.put(0x78 | 0x01 << 8, 16);
    header(&mut bits, &lengths);
    for byte in bytes {
        let symbol = usize::from(*byte);
        bits.put(codes[symbol], lengths[symbol]);
    }
    bits.put(codes[END], lengths[END]);
    let mut stream = bits.finish();
    stream.extend(adler32(bytes).to_be_bytes());
    stream
}

/// The last and only block, with codes of its own: the length of each code, in four bits.
fn header(bits: &mut Bits, lengths: &[u32; END + 1]) {
    bits.put(1 | 2 << 1, 3);
    bits.put(0, 5); // 257 literals
    bits.put(0, 5); // one distance
    bits.put(15, 4); // all 19 lengths of lengths, in the order 16, 17, 18, then the others
    for place in 0..19 {
        bits.put(if place < 3 { 0 } else { 4 }, 3);
    }
    for length in lengths {
        bits.put(reversed(*length, 4), 4);
    }
    bits.put(reversed(1, 4), 4); // the distance, which is never used
}

/// The lengths of Huffman's codes for symbols that come so often. Where one would be too long, counts
/// are brought closer together.
fn lengths(mut counts: [u64; END + 1]) -> [u32; END + 1] {
    loop {
        let lengths = depths(&counts);
        if lengths.iter().all(|length| *length <= LONGEST) {
            return lengths;
        }
        counts = counts.map(|count| count.div_ceil(2));
    }
}

/// How deep each symbol lies in Huffman's tree; 0 for one that never comes.
fn depths(counts: &[u64; END + 1]) -> [u32; END + 1] {
    let mut depths = [0; END + 1];
    let symbols = (0..=END).filter(|symbol| counts[*symbol] > 0);
    let mut trees: Vec<(u64, Vec<usize>)> = symbols.map(|s| (counts[s], vec![s])).collect();
    if let [(_, only)] = &trees[..] {
        depths[only[0]] = 1;
    }
    while trees.len() > 1 {
        trees.sort_by_key(|(count, _)| std::cmp::Reverse(*count));
        let (least, next) = (trees.pop(), trees.pop());
        let joined = least.into_iter().chain(next);
        let (count, members) = joined.fold((0, Vec::new()), |(sum, mut all), (count, tree)| {
            all.extend(tree);
            (sum + count, all)
        });
        members.iter().for_each(|symbol| depths[*symbol] += 1);
        trees.push((count, members));
    }
    depths
}

/// The codes that follow from their lengths, turned round as they are written.
fn codes(lengths: &[u32; END + 1]) -> [u32; END + 1] {
    let mut codes = [0; END + 1];
    let mut next = 0;
    for length in 1..=LONGEST {
        next <<= 1;
        for symbol in (0..=END).filter(|symbol| lengths[*symbol] == length) {
            codes[symbol] = reversed(next, length);
            next += 1;
        }
    }
    codes
}

fn reversed(bits: u32, count: u32) -> u32 {
    bits.reverse_bits() >> (32 - count)
}

fn adler32(bytes: &[u8]) -> u32 {
    let (mut a, mut b) = (1u32, 0u32);
    for part in bytes.chunks(5552) {
        for byte in part {
            a += u32::from(*byte);
            b += a;
        }
        (a, b) = (a % 65_521, b % 65_521);
    }
    b << 16 | a
}

#[cfg(test)]
mod tests {
    use super::{END, LONGEST, adler32, lengths, zlib};

    #[test]
    fn sums_that_are_published() {
        assert_eq!(adler32(b""), 1);
        assert_eq!(adler32(b"Wikipedia"), 0x11e6_0398);
    }

    /// Counts that grow like Fibonacci's numbers, whose tree is the deepest that there is.
    fn steep() -> [u64; END + 1] {
        let mut counts = [0; END + 1];
        let (mut a, mut b) = (1, 1);
        for count in &mut counts[200..] {
            *count = a;
            (a, b) = (b, a + b);
        }
        counts
    }

    #[test]
    fn codes_fill_their_tree_and_are_not_too_long() {
        let lengths = lengths(steep());
        let used = lengths.iter().filter(|length| **length > 0);
        let filled: u32 = used.map(|length| 1 << (LONGEST - length)).sum();
        assert_eq!(filled, 1 << LONGEST);
    }

    /// The next bits of a stream, as a number with the lowest first.
    fn take(stream: &[u8], place: &mut usize, count: u32) -> u32 {
        let bit = |k: u32| {
            let at = *place + k as usize;
            u32::from(stream[at / 8] >> (at % 8) & 1) << k
        };
        let bits = (0..count).map(bit).sum();
        *place += count as usize;
        bits
    }

    /// What RFC 1951 makes of a stream of one block that has codes of four bits for its lengths.
    fn unpacked(stream: &[u8]) -> Vec<u8> {
        let mut place = 16;
        assert_eq!(take(stream, &mut place, 17), 1 | 2 << 1 | 15 << 13);
        for k in 0..19 {
            assert_eq!(take(stream, &mut place, 3), if k < 3 { 0 } else { 4 });
        }
        let mut length = || take(stream, &mut place, 4).reverse_bits() >> 28;
        let lengths: Vec<u32> = (0..=END).map(|_| length()).collect();
        assert_eq!(length(), 1);
        let (mut code, mut coded) = (0, Vec::new());
        for length in 1..=LONGEST {
            code <<= 1;
            for symbol in (0..=END).filter(|symbol| lengths[*symbol] == length) {
                coded.push((length, code, symbol));
                code += 1;
            }
        }
        let mut bytes = Vec::new();
        loop {
            let (mut code, mut length) = (0, 0);
            let symbol = loop {
                code = code << 1 | take(stream, &mut place, 1);
                length += 1;
                let known = coded.iter().find(|(l, c, _)| (*l, *c) == (length, code));
                if let Some((_, _, symbol)) = known {
                    break *symbol;
                }
            };
            match u8::try_from(symbol) {
                Ok(byte) => bytes.push(byte),
                Err(_) => return bytes,
            }
        }
    }

    #[test]
    fn streams_unpack_to_what_was_packed() {
        let skewed = (0..20u8).flat_map(|byte| vec![byte; 1 << (byte / 2)]);
        for bytes in [
            vec![],
            vec![7],
            vec![0; 300],
            (0..=255).collect(),
            b"a rule, a box, a rule".to_vec(),
            skewed.collect(),
        ] {
            let stream = zlib(&bytes);
            assert_eq!(u16::from_be_bytes([stream[0], stream[1]]) % 31, 0);
            assert_eq!(stream[stream.len() - 4..], adler32(&bytes).to_be_bytes());
            assert_eq!(unpacked(&stream), bytes);
        }
    }
}
