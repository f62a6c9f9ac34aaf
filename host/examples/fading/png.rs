//! A picture of at most 256 colors, and its PNG file (not compressed: stored blocks).

use crate::font::glyph;

/// Dark violet over blue and green to yellow.
const RAMP: [[u8; 3]; 5] = [[68, 1, 84], [59, 82, 139], [33, 145, 140], [94, 201, 98], [253, 231, 37]];
/// Colors of the ramp; then background, empty cell, mark and writing.
const SHADES: usize = 240;
const FIXED: [[u8; 3]; 4] = [[24, 26, 33], [40, 43, 52], [255, 84, 84], [225, 228, 235]];

pub struct Picture {
    width: usize,
    height: usize,
    /// Numbers of colors, row by row.
    pixels: Vec<u8>,
}

impl Picture {
    const GROUND: u8 = SHADES as u8;
    pub const EMPTY: u8 = SHADES as u8 + 1;
    pub const MARK: u8 = SHADES as u8 + 2;
    const INK: u8 = SHADES as u8 + 3;

    pub fn new(width: usize, height: usize) -> Picture {
        Picture { width, height, pixels: vec![Picture::GROUND; width * height] }
    }

    /// The ramp's color for 0 to 1.
    pub fn color(value: f64) -> u8 {
        (value.clamp(0.0, 1.0) * (SHADES - 1) as f64).round() as u8
    }

    pub fn fill(&mut self, x: usize, y: usize, width: usize, height: usize, color: u8) {
        for row in y..y + height {
            self.pixels[row * self.width + x..][..width].fill(color);
        }
    }

    /// Letters of 5 × 8 points, a point being 2 × 2 pixels.
    pub fn write(&mut self, text: &str, x: usize, y: usize) {
        for (i, letter) in text.chars().enumerate() {
            for (column, points) in glyph(letter).into_iter().enumerate() {
                for row in (0..8).filter(|row| points >> row & 1 == 1) {
                    self.fill(x + 12 * i + 2 * column, y + 2 * row, 2, 2, Picture::INK);
                }
            }
        }
    }

    pub fn to_png(&self) -> Vec<u8> {
        let mut header = Vec::new();
        header.extend((self.width as u32).to_be_bytes());
        header.extend((self.height as u32).to_be_bytes());
        // eight bits a pixel, palette, the only compression and filter methods, not interlaced
        header.extend([8, 3, 0, 0, 0]);
        let palette: Vec<u8> = (0..SHADES).map(ramp).chain(FIXED).flatten().collect();
        // each row after its filter: none
        let rows: Vec<u8> = self.pixels.chunks(self.width).flat_map(|row| [&[0], row].concat()).collect();
        let mut png = b"\x89PNG\r\n\x1A\n".to_vec();
        png.extend(chunk(b"IHDR", &header));
        png.extend(chunk(b"PLTE", &palette));
        png.extend(chunk(b"IDAT", &zlib_stored(&rows)));
        png.extend(chunk(b"IEND", &[]));
        png
    }
}

fn ramp(shade: usize) -> [u8; 3] {
    let place = shade as f64 / (SHADES - 1) as f64 * (RAMP.len() - 1) as f64;
    let from = (place as usize).min(RAMP.len() - 2);
    let between = |a: u8, b: u8| (f64::from(a) + (place - from as f64) * (f64::from(b) - f64::from(a))).round() as u8;
    [0, 1, 2].map(|i| between(RAMP[from][i], RAMP[from + 1][i]))
}

fn chunk(kind: &[u8; 4], data: &[u8]) -> Vec<u8> {
    let body = [kind, data].concat();
    [&(data.len() as u32).to_be_bytes(), &body[..], &crc32(&body).to_be_bytes()].concat()
}

/// RFC 1950 and 1951, with stored blocks only.
fn zlib_stored(data: &[u8]) -> Vec<u8> {
    let mut out = vec![0x78, 0x01];
    let blocks = data.chunks(65535);
    let last = blocks.len() - 1;
    for (i, block) in blocks.enumerate() {
        let length = block.len() as u16;
        out.push(u8::from(i == last));
        out.extend(length.to_le_bytes());
        out.extend((!length).to_le_bytes());
        out.extend(block);
    }
    out.extend(adler32(data).to_be_bytes());
    out
}

fn adler32(data: &[u8]) -> u32 {
    let (a, b) = data.iter().fold((1, 0), |(a, b), &byte| {
        let a = (a + u32::from(byte)) % 65521;
        (a, (b + a) % 65521)
    });
    b << 16 | a
}

fn crc32(data: &[u8]) -> u32 {
    let bit = |crc: u32, _| if crc & 1 == 1 { crc >> 1 ^ 0xEDB8_8320 } else { crc >> 1 };
    !data.iter().fold(!0, |crc, &byte| (0..8).fold(crc ^ u32::from(byte), bit))
}
