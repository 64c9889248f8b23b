//! The listing of a record as text.

use crate::list::{Channel, Step};
use crate::{record, refusal};
use std::fmt::Write;

/// The listing: steps, channels and coarse count; or a refusal's number.
pub fn listing(bytes: &[u8]) -> Result<String, u32> {
    let plan = record::judge(bytes)?;
    let layout = plan.layout();
    let mut text = format!("steps {}\n", plan.steps.len());
    plan.steps.iter().for_each(|s| step_line(s, &mut text));
    writeln!(text, "channels {}", layout.len()).expect("text");
    layout.iter().for_each(|c| channel_line(c, &mut text));
    writeln!(text, "coarse {}", plan.coarse()).expect("text");
    Ok(text)
}

/// Puts the listing over the front of `text` and its length over the first of
/// `length`: 0, or a refusal's number and both slices as they were.
pub fn list_record(bytes: &[u8], text: &mut [u8], length: &mut [u32]) -> u32 {
    let listing = match listing(bytes) {
        Ok(listing) => listing,
        Err(number) => return number,
    };
    if text.len() < listing.len() || length.is_empty() {
        return refusal::LENGTH;
    }
    text[..listing.len()].copy_from_slice(listing.as_bytes());
    length[0] = listing.len() as u32;
    0
}

fn step_line(step: &Step, text: &mut String) {
    let direction = if step.horizontal { 'h' } else { 'v' };
    let place = if step.in_place { "in" } else { "out" };
    writeln!(text, "{direction} {place} {} {}", step.first, step.number).expect("text");
}

fn channel_line(channel: &Channel, text: &mut String) {
    let (w, h) = (channel.width, channel.height);
    match channel.shifts {
        Some((hshift, vshift)) => writeln!(text, "{w} {h} {hshift} {vshift}"),
        None => writeln!(text, "{w} {h} m m"),
    }
    .expect("text");
}
