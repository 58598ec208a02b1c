//! Pictures as scanners' tools write them: Netpbm's raw grey (P5) and raw bitmap (P4).

use std::io::{BufRead, Read, Write};

use crate::fields::Sides;
use crate::limits;

/// What a file says of itself before its raster.
struct Header {
    magic: [u8; 2],
    sides: Sides,
}

/// The bytes of a P5 file of these sides, one a pixel.
pub fn gray(file: &mut impl BufRead, sides: Sides) -> Result<Vec<u8>, String> {
    let header = header(file, &[b"P5"])?;
    agree(&header, sides)?;
    raster(file, sides.places(), limits::PLACES)
}

/// The ink of a P4 file of these sides, where a bit of 1 is ink, or of a P5 file, where every byte but
/// 0 is; one byte a pixel.
pub fn ink(file: &mut impl BufRead, sides: Sides) -> Result<Vec<u8>, String> {
    let header = header(file, &[b"P4", b"P5"])?;
    agree(&header, sides)?;
    if header.magic == *b"P5" {
        return raster(file, sides.places(), limits::PLACES);
    }
    let row = sides.width.div_ceil(8);
    let packed = raster(file, row.saturating_mul(sides.height), limits::PLACES)?;
    let held = sides.places().min(limits::PLACES + 1);
    let rows = packed.chunks(row.max(1));
    let pixels = rows.flat_map(|row| (0..sides.width).map_while(move |x| bit(row, x)));
    Ok(pixels.take(held).collect())
}

/// The pixel of a packed row, its leftmost in the highest bit.
fn bit(row: &[u8], x: usize) -> Option<u8> {
    row.get(x / 8).map(|byte| byte >> (7 - x % 8) & 1)
}

/// Writes a P5 file.
pub fn write_gray(out: &mut impl Write, sides: Sides, bytes: &[u8]) -> std::io::Result<()> {
    write!(out, "P5\n{} {}\n255\n", sides.width, sides.height)?;
    out.write_all(bytes)
}

fn header(file: &mut impl BufRead, known: &[&[u8; 2]]) -> Result<Header, String> {
    let mut magic = [0; 2];
    let read = file.read_exact(&mut magic);
    if read.is_err() || !known.contains(&&magic) {
        let known: Vec<_> = known.iter().map(|m| String::from_utf8_lossy(*m)).collect();
        return Err(format!("is not a Netpbm file {}", known.join(" or ")));
    }
    let sides = Sides {
        width: number(file, "width")?,
        height: number(file, "height")?,
    };
    if magic == *b"P5" {
        let most = number(file, "maxval")?;
        if most != 255 {
            return Err(format!("has a maxval of {most}, not 255"));
        }
    }
    Ok(Header { magic, sides })
}

/// The next number of the header, behind white space, and the one white space after it.
fn number(file: &mut impl BufRead, what: &str) -> Result<usize, String> {
    let mut byte = next(file)?;
    while byte.is_ascii_whitespace() {
        byte = next(file)?;
    }
    let mut value: Option<usize> = None;
    while byte.is_ascii_digit() {
        let digit = usize::from(byte - b'0');
        let grown = value.unwrap_or(0).checked_mul(10);
        value = grown.and_then(|tens| tens.checked_add(digit));
        if value.is_none() {
            return Err(format!("has a {what} of more than 64 bits"));
        }
        byte = next(file)?;
    }
    match value {
        Some(value) if byte.is_ascii_whitespace() => Ok(value),
        _ => Err(format!("has no {what} where it should stand in the header")),
    }
}

/// The next byte of the header; a comment counts as the newline at its end.
fn next(file: &mut impl BufRead) -> Result<u8, String> {
    match byte(file)? {
        b'#' => {
            while byte(file)? != b'\n' {}
            Ok(b'\n')
        }
        other => Ok(other),
    }
}

fn byte(file: &mut impl BufRead) -> Result<u8, String> {
    let mut byte = [0];
    match file.read_exact(&mut byte) {
        Ok(()) => Ok(byte[0]),
        Err(_) => Err("ends inside its header".into()),
    }
}

fn agree(header: &Header, sides: Sides) -> Result<(), String> {
    if header.sides == sides {
        return Ok(());
    }
    let (file, text) = (header.sides, sides);
    Err(format!(
        "is {} by {}, and the text says {} by {}",
        file.width, file.height, text.width, text.height
    ))
}

/// Exactly this many bytes, and nothing behind them. One more than `most` is held at most.
fn raster(file: &mut impl BufRead, count: usize, most: usize) -> Result<Vec<u8>, String> {
    let held = count.min(most.saturating_add(1));
    let mut bytes = Vec::new();
    let read = |error: std::io::Error| error.to_string();
    let mut there = file
        .take(held as u64)
        .read_to_end(&mut bytes)
        .map_err(read)?;
    loop {
        let more = file.fill_buf().map_err(read)?.len();
        if more == 0 {
            break;
        }
        file.consume(more);
        there = there.saturating_add(more);
        if there > count {
            return Err(format!("has more than the {count} bytes of its picture"));
        }
    }
    if there < count {
        return Err(format!("is cut: {there} of {count} bytes are there"));
    }
    Ok(bytes)
}

#[cfg(test)]
mod tests {
    use super::{Sides, gray, ink};

    const SIDES: Sides = Sides {
        width: 3,
        height: 2,
    };

    fn grey(file: &[u8]) -> Result<Vec<u8>, String> {
        gray(&mut &file[..], SIDES)
    }

    #[test]
    fn a_grey_picture() {
        assert_eq!(grey(b"P5\n3 2\n255\nabcdef"), Ok(b"abcdef".to_vec()));
        let commented = b"P5 # by a scanner\n#\n3\t#wide\n  2 255 \nbcde#";
        assert_eq!(grey(commented), Ok(b"\nbcde#".to_vec()));
        let closely = b"P5 3#wide\n2#high\n255#most\nabcdef";
        assert_eq!(grey(closely), Ok(b"abcdef".to_vec()));
    }

    #[test]
    fn ink_from_bits_and_from_bytes() {
        let wide = Sides {
            width: 10,
            height: 2,
        };
        let bits = b"P4\n10 2\n\x81\x40\x00\xff";
        let pixels = [1, 0, 0, 0, 0, 0, 0, 1, 0, 1, 0, 0, 0, 0, 0, 0, 0, 0, 1, 1];
        assert_eq!(ink(&mut &bits[..], wide), Ok(pixels.to_vec()));
        let bytes = b"P5 3 2 255\n\0\x01\0\xff\0\0";
        assert_eq!(ink(&mut &bytes[..], SIDES), Ok(vec![0, 1, 0, 255, 0, 0]));
    }

    #[test]
    fn files_that_are_refused() {
        for (file, message) in [
            (&b""[..], "is not a Netpbm file P5"),
            (b"P4\n3 2\n\0\0", "is not a Netpbm file P5"),
            (b"\x89PNG", "is not a Netpbm file P5"),
            (b"P5", "ends inside its header"),
            (b"P5\n3 2\n255", "ends inside its header"),
            (b"P5\n3 #", "ends inside its header"),
            (
                b"P5\n3 x",
                "has no height where it should stand in the header",
            ),
            (
                b"P5\n3 2\n-255\nabcdef",
                "has no maxval where it should stand in the header",
            ),
            (
                b"P5\n99999999999999999999 2\n255\n",
                "has a width of more than 64 bits",
            ),
            (
                b"P5\n3 2\n65535\nabcdefabcdef",
                "has a maxval of 65535, not 255",
            ),
            (b"P5\n3 2\n1\nabcdef", "has a maxval of 1, not 255"),
            (
                b"P5\n2 3\n255\nabcdef",
                "is 2 by 3, and the text says 3 by 2",
            ),
            (b"P5\n3 2\n255\nabcde", "is cut: 5 of 6 bytes are there"),
            (
                b"P5\n3 2\n255\nabcdefg",
                "has more than the 6 bytes of its picture",
            ),
        ] {
            assert_eq!(grey(file), Err(message.into()), "{}", file.escape_ascii());
        }
    }
}
