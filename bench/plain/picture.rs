//! Readouts and pictures of a ramp (docs/FORMATS.md, Pictures), and a memory of their digests.
use crate::sha256::digest;

pub const COLUMNS: usize = 160;
pub const ROWS: usize = 120;

/// The settings of the template `preview`, all that a bench plays.
pub const LEVEL: u32 = 128;
pub const EXPOSURE: u64 = 10_000_000;
pub const ISO: u32 = 100;

#[derive(Clone, Copy, PartialEq, Eq, Debug)]
pub enum Format {
    Raw16,
    Yuv { width: usize, height: usize },
}

impl Format {
    pub fn bytes(self) -> usize {
        match self {
            Format::Raw16 => COLUMNS * ROWS * 2,
            Format::Yuv { width, height } => width * height * 3 / 2,
        }
    }

    /// How many buffers of such a stream may be at the device.
    pub fn most_at_device(self) -> u32 {
        match self {
            Format::Raw16 => 3,
            Format::Yuv { .. } => 4,
        }
    }
}

/// Reads out the sensor: frame n of the ramp.
pub fn expose(frame: u32, readout: &mut [u16]) {
    let mut values = [0u16; COLUMNS + ROWS];
    for (place, value) in values.iter_mut().enumerate() {
        let scene = (place as u32 + frame) % 256;
        *value = (64 + (scene * (EXPOSURE / 100_000) as u32 * ISO / 2_500).min(959)) as u16;
    }
    for (y, row) in readout.chunks_exact_mut(COLUMNS).enumerate() {
        row.copy_from_slice(&values[y..y + COLUMNS]);
    }
}

/// Readout values as 0 to 255.
static SCALED: [i32; 1024] = {
    let mut table = [0; 1024];
    let mut value = 64;
    while value < 1024 {
        table[value] = (value as i32 - 64) * 255 / 959;
        value += 1;
    }
    table
};

/// Red, green and blue of the cell of four filters whose first is at this place of a readout.
fn cell(readout: &[u16], first: usize) -> (i32, i32, i32) {
    let mean = (readout[first + 1] + readout[first + COLUMNS]) / 2;
    let of = |value: u16| SCALED[usize::from(value) & 1023];
    (of(readout[first]), of(mean), of(readout[first + COLUMNS + 1]))
}

/// Draws the picture of a readout.
pub fn draw(format: Format, readout: &[u16], buffer: &mut [u8]) {
    match format {
        Format::Raw16 => {
            for (bytes, value) in buffer.chunks_exact_mut(2).zip(readout) {
                bytes.copy_from_slice(&value.to_le_bytes());
            }
        }
        Format::Yuv { width, height } => draw_yuv(width, height, readout, buffer),
    }
}

fn draw_yuv(width: usize, height: usize, readout: &[u16], buffer: &mut [u8]) {
    let (luma, chroma) = buffer.split_at_mut(width * height);
    let (blues, reds) = chroma.split_at_mut(width * height / 4);
    // in the sensor's size four places share a cell, else each has its own
    let shared = if width == COLUMNS { 2 } else { 1 };
    for y in (0..height).step_by(shared) {
        let top = y * ROWS / height / 2 * 2 * COLUMNS;
        for x in (0..width).step_by(shared) {
            let (red, green, blue) = cell(readout, top + x * COLUMNS / width / 2 * 2);
            let bright = ((66 * red + 129 * green + 25 * blue + 128) / 256 + 16) as u8;
            luma[y * width + x..][..shared].fill(bright);
            if x % 2 == 0 && y % 2 == 0 {
                let place = y / 2 * (width / 2) + x / 2;
                blues[place] = ((32_896 - 38 * red - 74 * green + 112 * blue) / 256) as u8;
                reds[place] = ((32_896 + 112 * red - 94 * green - 18 * blue) / 256) as u8;
            }
        }
        if shared == 2 {
            luma.copy_within(y * width..(y + 1) * width, (y + 1) * width);
        }
    }
}

/// The digests of pictures that were hashed: a ramp has 256 of each format.
pub struct Digests {
    known: Vec<(Format, Vec<Option<[u8; 32]>>)>,
}

impl Digests {
    pub fn new() -> Digests {
        Digests { known: Vec::new() }
    }

    /// Whether a picture's digest needs no picture.
    pub fn knows(&self, format: Format, frame: u32) -> bool {
        self.known.iter().any(|(known, digests)| *known == format && digests[frame as usize % 256].is_some())
    }

    pub fn of(&mut self, format: Format, frame: u32, picture: &[u8]) -> [u8; 32] {
        let at = match self.known.iter().position(|(known, _)| *known == format) {
            Some(at) => at,
            None => {
                self.known.push((format, vec![None; 256]));
                self.known.len() - 1
            }
        };
        *self.known[at].1[frame as usize % 256].get_or_insert_with(|| digest(picture))
    }
}
