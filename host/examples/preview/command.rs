//! The command: arguments, files and messages.

use crate::{coarse, pnm};
use squeeze::Version;
use std::fs;

/// The longest side of an enlarged preview.
const MAX_SIDE: usize = 2048;

/// Does what the arguments ask. Gives two lines for the clerk, or why not; then no
/// output file was made.
pub fn run(words: &[String]) -> Result<String, String> {
    let (input, output, factor, version) = match words {
        [input, output] => (input, output, "1", "1"),
        [input, output, factor] => (input, output, &factor[..], "1"),
        [input, output, factor, version] => (input, output, &factor[..], &version[..]),
        _ => return Err("usage: preview INPUT OUTPUT [FACTOR [VERSION]]".into()),
    };
    let version = Version(whole_number(version, "version", 255)? as u8);
    // A preview has at most 8 by 8 samples, under version 2 at most 32 by 32.
    let side = if version == Version::HOUSE { 32 } else { 8 };
    let factor = whole_number(factor, "factor", MAX_SIDE / side)?;
    let bytes = fs::read(input).map_err(|error| format!("{input}: {error}"))?;
    let picture = pnm::parse(&bytes).map_err(|reason| format!("{input}: {reason}"))?;
    let preview = coarse::preview(&picture, version);
    let preview = preview.map_err(|refusal| format!("{input}: {refusal}"))?;
    let bytes = pnm::format(&preview.picture.enlarged(factor));
    fs::write(output, bytes).map_err(|error| format!("{output}: {error}"))?;
    Ok(format!(
        "{} by {} samples from the first {} of {}\n{}",
        preview.picture.width,
        preview.picture.height,
        preview.arrived,
        picture.samples.len(),
        to_come(&preview.to_come)
    ))
}

/// What the rest of the upload refines: how many residuals each channel.
fn to_come(numbers: &[usize]) -> String {
    let mut words = Vec::new();
    for (channel, number) in numbers.iter().enumerate() {
        if *number > 0 {
            words.push(format!("{number} for channel {channel}"));
        }
    }
    match &words[..] {
        [] => "no refinement is to come".into(),
        _ => format!("refinements to come: {}", words.join(", ")),
    }
}

fn whole_number(word: &str, what: &str, most: usize) -> Result<usize, String> {
    match word.parse() {
        Ok(number) if (1..=most).contains(&number) => Ok(number),
        _ => Err(format!(
            "the {what} {word:?} isn't a whole number from 1 to {most}"
        )),
    }
}
