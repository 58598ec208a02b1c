//! A grey picture as PNG, in the base64 of a link that holds its own data.

use super::deflate::zlib;
use crate::fields::Sides;

/// The link to the picture.
pub fn link(sides: Sides, gray: &[u8]) -> String {
    format!("data:image/png;base64,{}", base64(&png(sides, gray)))
}

fn png(sides: Sides, gray: &[u8]) -> Vec<u8> {
    let mut file = b"\x89PNG\r\n\x1a\n".to_vec();
    let mut header = Vec::new();
    header.extend((sides.width as u32).to_be_bytes());
    header.extend((sides.height as u32).to_be_bytes());
    header.extend([8, 0, 0, 0, 0]);
    chunk(&mut file, b"IHDR", &header);
    chunk(&mut file, b"IDAT", &zlib(&filtered(sides.width, gray)));
    chunk(&mut file, b"IEND", &[]);
    file
}

/// Each row behind the number of its filter, which takes from each pixel the mean of its left and its
/// upper neighbour: what is left is small, and packs well.
fn filtered(width: usize, gray: &[u8]) -> Vec<u8> {
    let mut rows = Vec::with_capacity(gray.len() + gray.len() / width.max(1));
    let mut above = vec![0; width];
    for row in gray.chunks(width.max(1)) {
        rows.push(3);
        let mut left = 0;
        for (grey, up) in row.iter().zip(&above) {
            let mean = (u16::from(left) + u16::from(*up)) / 2;
            rows.push(grey.wrapping_sub(mean as u8));
            left = *grey;
        }
        above.copy_from_slice(row);
    }
    rows
}

fn chunk(file: &mut Vec<u8>, name: &[u8; 4], content: &[u8]) {
    file.extend((content.len() as u32).to_be_bytes());
    let start = file.len();
    file.extend(name);
    file.extend(content);
    let sum = crc32(&file[start..]);
    file.extend(sum.to_be_bytes());
}

fn crc32(bytes: &[u8]) -> u32 {
    let table: [u32; 256] = std::array::from_fn(|byte| {
        (0..8).fold(byte as u32, |sum, _| {
            sum >> 1 ^ if sum & 1 == 1 { 0xedb8_8320 } else { 0 }
        })
    });
    !bytes.iter().fold(!0, |sum, byte| {
        table[usize::from(sum as u8 ^ byte)] ^ sum >> 8
    })
}

fn base64(bytes: &[u8]) -> String {
    const DIGITS: &[u8; 64] = b"ABCDEFGHIJKLMNOPQRSTUVWXYZabcdefghijklmnopqrstuvwxyz0123456789+/";
    let mut text = String::with_capacity(bytes.len().div_ceil(3) * 4);
    for part in bytes.chunks(3) {
        let at = |k: usize| u32::from(*part.get(k).unwrap_or(&0));
        let bits = at(0) << 16 | at(1) << 8 | at(2);
        for k in 0..4 {
            let digit = DIGITS[(bits >> (18 - 6 * k) & 63) as usize];
            text.push(if k > part.len() as u32 {
                '='
            } else {
                digit.into()
            });
        }
    }
    text
}

#[cfg(test)]
mod tests {
    use super::{base64, crc32, filtered};

    #[test]
    fn sums_and_digits_that_are_published() {
        assert_eq!(crc32(b"123456789"), 0xcbf4_3926);
        for (bytes, text) in [
            ("", ""),
            ("f", "Zg=="),
            ("fo", "Zm8="),
            ("foobar", "Zm9vYmFy"),
        ] {
            assert_eq!(base64(bytes.as_bytes()), text);
        }
    }

    #[test]
    fn rows_less_the_mean_of_their_neighbours() {
        assert_eq!(filtered(2, &[10, 20, 30, 50]), [3, 10, 15, 3, 25, 25]);
    }
}
