//! Portable graymaps and pixmaps: P2, P3, P5 and P6.

/// The core's limits, so that a bad file gets a message of its own.
const MAX_SIDE: usize = 1_048_575;
const MAX_SAMPLES: usize = 16_777_216;

/// A picture, sample after sample as in the file: channels side by side.
#[derive(Clone, Debug, PartialEq, Eq)]
pub struct Picture {
    pub width: usize,
    pub height: usize,
    /// 1 for a graymap, 3 for a pixmap.
    pub channels: usize,
    pub maxval: u16,
    pub samples: Vec<u16>,
}

impl Picture {
    /// The samples channel after channel.
    pub fn planes(&self) -> Vec<i32> {
        let mut planes = Vec::with_capacity(self.samples.len());
        for k in 0..self.channels {
            let plane = self.samples.iter().skip(k).step_by(self.channels);
            planes.extend(plane.map(|&sample| i32::from(sample)));
        }
        planes
    }

    /// The picture with each sample `factor` times as wide and high.
    pub fn enlarged(&self, factor: usize) -> Picture {
        let mut samples = Vec::with_capacity(self.samples.len() * factor * factor);
        for y in 0..self.height * factor {
            for x in 0..self.width * factor {
                let at = (y / factor * self.width + x / factor) * self.channels;
                samples.extend_from_slice(&self.samples[at..at + self.channels]);
            }
        }
        Picture {
            width: self.width * factor,
            height: self.height * factor,
            samples,
            ..*self
        }
    }
}

/// Reads the first picture of a file, or says why not.
pub fn parse(bytes: &[u8]) -> Result<Picture, String> {
    let (channels, plain) = match bytes {
        [b'P', b'2', ..] => (1, true),
        [b'P', b'3', ..] => (3, true),
        [b'P', b'5', ..] => (1, false),
        [b'P', b'6', ..] => (3, false),
        _ => return Err("not a portable graymap or pixmap (P2, P3, P5 or P6)".into()),
    };
    let mut reader = Reader { bytes: &bytes[2..] };
    let width = reader.number("width")?;
    let height = reader.number("height")?;
    let maxval = reader.number("maxval")?;
    check_sizes(width, height, channels)?;
    if !(1..=65_535).contains(&maxval) {
        return Err(format!("maxval {maxval} isn't 1 to 65535"));
    }
    let maxval = maxval as u16;
    let number = width * height * channels;
    let samples = if plain {
        reader.plain_samples(number)?
    } else {
        reader.raw_samples(number, maxval)?
    };
    if samples.iter().any(|&sample| sample > maxval) {
        return Err(format!("a sample is above maxval {maxval}"));
    }
    Ok(Picture {
        width,
        height,
        channels,
        maxval,
        samples,
    })
}

fn check_sizes(width: usize, height: usize, channels: usize) -> Result<(), String> {
    if width == 0 || height == 0 {
        return Err(format!("{width} by {height} has no samples"));
    }
    let fits = width <= MAX_SIDE && height <= MAX_SIDE;
    if !fits || width * height * channels > MAX_SAMPLES {
        return Err(format!(
            "{width} by {height} with {channels} channels is too large \
             (sides up to {MAX_SIDE}, {MAX_SAMPLES} samples)"
        ));
    }
    Ok(())
}

struct Reader<'a> {
    bytes: &'a [u8],
}

impl Reader<'_> {
    /// Skips white space and comments, of which there must be some.
    fn skip_space(&mut self, what: &str) -> Result<(), String> {
        let before = self.bytes.len();
        let mut comment = false;
        while let [byte, rest @ ..] = self.bytes {
            match byte {
                b'\n' | b'\r' => comment = false,
                _ if comment => {}
                b'#' => comment = true,
                b' ' | b'\t' | 0x0b | 0x0c => {}
                _ => break,
            }
            self.bytes = rest;
        }
        if self.bytes.is_empty() {
            return Err(format!("cut: no {what}"));
        }
        if self.bytes.len() == before {
            return Err(format!("no white space before the {what}"));
        }
        Ok(())
    }

    /// A number after white space; a very large one stands for all larger ones.
    fn number(&mut self, what: &str) -> Result<usize, String> {
        const LARGE: usize = 999_999_999;
        self.skip_space(what)?;
        let digits = self.bytes.iter().take_while(|b| b.is_ascii_digit()).count();
        if digits == 0 {
            return Err(format!("no number for the {what}"));
        }
        let (word, rest) = self.bytes.split_at(digits);
        self.bytes = rest;
        Ok(word.iter().fold(0, |value: usize, digit| {
            (value * 10 + usize::from(digit - b'0')).min(LARGE)
        }))
    }

    fn plain_samples(&mut self, number: usize) -> Result<Vec<u16>, String> {
        // At least two bytes stand for each sample.
        if self.bytes.len() / 2 < number {
            return Err(cut(number));
        }
        (0..number)
            .map(|_| {
                let sample = self.number("next sample")?;
                u16::try_from(sample).map_err(|_| "a sample is above 65535".into())
            })
            .collect()
    }

    fn raw_samples(&mut self, number: usize, maxval: u16) -> Result<Vec<u16>, String> {
        let [space, rest @ ..] = self.bytes else {
            return Err(cut(number));
        };
        if !space.is_ascii_whitespace() {
            return Err("no white space after maxval".into());
        }
        let width = if maxval < 256 { 1 } else { 2 };
        let Some(body) = rest.get(..number * width) else {
            return Err(cut(number));
        };
        Ok(body
            .chunks_exact(width)
            .map(|word| {
                word.iter()
                    .fold(0, |value, &byte| value << 8 | u16::from(byte))
            })
            .collect())
    }
}

fn cut(number: usize) -> String {
    format!("cut: fewer than {number} samples")
}

/// The bytes of a P5 or P6 file.
pub fn format(picture: &Picture) -> Vec<u8> {
    let kind = if picture.channels == 1 { 5 } else { 6 };
    let (width, height, maxval) = (picture.width, picture.height, picture.maxval);
    let mut bytes = format!("P{kind}\n{width} {height}\n{maxval}\n").into_bytes();
    for &sample in &picture.samples {
        let [high, low] = sample.to_be_bytes();
        if maxval >= 256 {
            bytes.push(high);
        }
        bytes.push(low);
    }
    bytes
}
