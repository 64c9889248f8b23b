//! The preview that a picture's coarse averages give.

use crate::pnm::Picture;
use squeeze::{layout, write_pyramid, Channel, Record, Refusal, Version};

/// A preview, how many samples of the pyramid it took, and what is still to come.
pub struct Preview {
    /// As wide and high as the first channel's average.
    pub picture: Picture,
    /// Samples at the front of the pyramid, those of palettes among them.
    pub arrived: usize,
    /// For each channel of the picture, palettes first, how many channels of the
    /// pyramid refine it that the preview doesn't show.
    pub to_come: Vec<usize>,
}

/// Squeezes a picture with the version's default plan. The front of its pyramid holds
/// one average for each of its channels, in order.
pub fn preview(picture: &Picture, version: Version) -> Result<Preview, Refusal> {
    let channel = Channel::new(picture.width as u32, picture.height as u32);
    let channels = vec![channel; picture.channels];
    let record = Record::from_parts_under(version, &channels, &[])?;
    let pyramid = write_pyramid(record.bytes(), &picture.planes())?;
    shown(record.bytes(), &pyramid, picture.channels, picture.maxval)
}

/// The preview of a pyramid whose picture has so many channels. Palettes stand
/// before the averages; they arrive first and aren't shown.
pub fn shown(
    record: &[u8],
    pyramid: &[i32],
    channels: usize,
    maxval: u16,
) -> Result<Preview, Refusal> {
    let layout = layout(record)?;
    let averages = &layout.preview_channels()[..channels];
    let start = layout.preview_samples().start;
    let arrived = start + averages.iter().map(Channel::samples).sum::<usize>();
    let picture = assemble(averages, &pyramid[start..arrived], maxval);
    let shown = layout.metas() + channels;
    let refine = |k: usize| layout.refinements(k).filter(|&at| at >= shown).count();
    Ok(Preview {
        picture,
        arrived,
        to_come: (0..layout.picture_channels()).map(refine).collect(),
    })
}

/// One picture of averages. Version 1's default plan squeezes the second and third
/// channel once more; they are drawn by their nearest sample.
fn assemble(averages: &[Channel], samples: &[i32], maxval: u16) -> Picture {
    let size = |channel: &Channel| (channel.width as usize, channel.height as usize);
    let (width, height) = size(&averages[0]);
    let mut out = vec![0; width * height * averages.len()];
    let mut start = 0;
    for (k, channel) in averages.iter().enumerate() {
        let (w, h) = size(channel);
        for y in 0..height {
            for x in 0..width {
                let at = start + nearest(y, height, h) * w + nearest(x, width, w);
                out[(y * width + x) * averages.len() + k] = samples[at] as u16;
            }
        }
        start += w * h;
    }
    Picture {
        width,
        height,
        channels: averages.len(),
        maxval,
        samples: out,
    }
}

/// The sample of `few` whose place is nearest to the middle of sample `at` of
/// `many`.
fn nearest(at: usize, many: usize, few: usize) -> usize {
    (2 * at + 1) * few / (2 * many)
}
