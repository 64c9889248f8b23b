//! What a record's plan does to its channel list.

use crate::{answer, ffi, Refusal};
use std::ops::Range;

/// The most steps of a plan, and the most channels of a list.
const STEPS: usize = 64;
const CHANNELS: usize = 256;

/// The numbers that hold every layout: counts, steps, channels and origins.
pub const LAYOUT_ROOM: [usize; 4] = [4, 3 * STEPS, 4 * CHANNELS, CHANNELS];

/// Both shifts of a meta channel, as numbers.
pub(crate) const META: u8 = 255;

/// A channel of a list. One with a side above 65,535 is a strip. Any sides can be
/// made; the core refuses those above 1,048,575.
#[derive(Clone, Copy, Debug, PartialEq, Eq, Hash)]
pub struct Channel {
    /// Samples in a row.
    pub width: u32,
    /// Rows.
    pub height: u32,
    /// Horizontal and vertical shift; none for a meta channel.
    pub shifts: Option<(u8, u8)>,
}

impl Channel {
    /// A channel without shifts.
    pub fn new(width: u32, height: u32) -> Channel {
        Channel {
            width,
            height,
            shifts: Some((0, 0)),
        }
    }

    /// A meta channel.
    pub fn meta(width: u32, height: u32) -> Channel {
        Channel {
            width,
            height,
            shifts: None,
        }
    }

    /// A channel with these shifts; both 255 for meta.
    pub(crate) fn shifted(width: u32, height: u32, hshift: u8, vshift: u8) -> Channel {
        Channel {
            width,
            height,
            shifts: Some((hshift, vshift)).filter(|&shifts| shifts != (META, META)),
        }
    }

    /// Whether the channel is meta: a palette, not a part of the picture.
    pub fn is_meta(&self) -> bool {
        self.shifts.is_none()
    }

    /// How many samples the channel has; of more than a machine can count, the
    /// most that it can.
    pub fn samples(&self) -> usize {
        (self.width as usize).saturating_mul(self.height as usize)
    }
}

/// A step of a plan.
#[derive(Clone, Copy, Debug, PartialEq, Eq, Hash)]
pub struct Step {
    /// Along the rows; else along the columns.
    pub horizontal: bool,
    /// Residuals straight after the range; else after the last channel.
    pub in_place: bool,
    /// The first channel of the range.
    pub first: u16,
    /// How many channels the range has.
    pub number: u16,
}

/// A plan's version: what the default plan does, and up to which side a channel is
/// coarse. Other numbers than the two named ones can be made; the core refuses them.
#[derive(Clone, Copy, Debug, PartialEq, Eq, Hash)]
pub struct Version(pub u8);

impl Version {
    /// As the standard has it: the default plan has chroma steps first and stops at
    /// 8.
    pub const STANDARD: Version = Version(1);
    /// For larger screens: the default plan has no chroma steps and stops at 32.
    pub const HOUSE: Version = Version(2);
}

impl Default for Version {
    fn default() -> Version {
        Version::STANDARD
    }
}

/// The steps of an accepted record, the default plan's if the record has none,
/// the channels of its pyramid, and what each of these refines.
#[derive(Clone, Debug, PartialEq, Eq)]
pub struct Layout {
    /// The record's version.
    pub version: Version,
    /// The steps, in the order in which the writer takes them.
    pub steps: Vec<Step>,
    /// The channels of the pyramid.
    pub channels: Vec<Channel>,
    /// The origin of each of them: the position, in the record's list, of the picture
    /// channel that it was made from. It refines that channel, or holds its averages.
    pub origins: Vec<usize>,
    /// How many leading channels are coarse: meta, of any size, or without a side
    /// above 8, under version 2 above 32.
    pub coarse: usize,
}

impl Layout {
    /// How many samples picture and pyramid have.
    pub fn samples(&self) -> usize {
        samples(&self.channels)
    }

    /// How many samples at the front of the pyramid are coarse.
    pub fn coarse_samples(&self) -> usize {
        samples(&self.channels[..self.coarse])
    }

    /// How many meta channels there are; they come first, and are all coarse.
    pub fn metas(&self) -> usize {
        self.channels.iter().take_while(|c| c.is_meta()).count()
    }

    /// The channels that a preview shows: coarse ones of the picture, without the
    /// meta channels before them.
    pub fn preview_channels(&self) -> &[Channel] {
        &self.channels[self.metas()..self.coarse]
    }

    /// Where the samples of [`preview_channels`](Layout::preview_channels) stand in
    /// the pyramid.
    pub fn preview_samples(&self) -> Range<usize> {
        samples(&self.channels[..self.metas()])..self.coarse_samples()
    }

    /// How many channels the picture has, palettes among them: as many as the record.
    pub fn picture_channels(&self) -> usize {
        self.origins.iter().max().map_or(0, |last| last + 1)
    }

    /// The position in the pyramid of a picture channel's averages, or of the channel
    /// itself where no step squeezed it: the first with that origin. None for a picture
    /// channel that doesn't exist.
    pub fn averages(&self, picture_channel: usize) -> Option<usize> {
        self.with_origin(picture_channel).next()
    }

    /// The positions in the pyramid of the residuals that refine a picture channel, in
    /// the order of upload.
    pub fn refinements(&self, picture_channel: usize) -> impl Iterator<Item = usize> + '_ {
        self.with_origin(picture_channel).skip(1)
    }

    /// The picture channel that channel `k` of the pyramid refines; none where `k` is
    /// that picture channel's averages, or all of it.
    ///
    /// ```
    /// use squeeze::{layout, Channel, Record, Refusal};
    ///
    /// // A photograph, 9 by 9: chroma steps on its second and third channel, then two
    /// // steps on all three.
    /// let record = Record::from_parts(&[Channel::new(9, 9); 3], &[])?;
    /// let layout = layout(record.bytes())?;
    /// assert_eq!(layout.origins, [0, 1, 2, 0, 1, 2, 0, 1, 2, 1, 2, 1, 2]);
    ///
    /// // The last channel comes late: it refines picture channel 2, as three others do.
    /// assert_eq!(layout.refines(12), Some(2));
    /// assert_eq!(layout.refinements(2).collect::<Vec<_>>(), [5, 8, 10, 12]);
    ///
    /// // What they refine are that channel's averages, which refine nothing.
    /// assert_eq!((layout.averages(2), layout.refines(2)), (Some(2), None));
    /// # Ok::<(), Refusal>(())
    /// ```
    pub fn refines(&self, k: usize) -> Option<usize> {
        let origin = self.origins[k];
        self.origins[..k].contains(&origin).then_some(origin)
    }

    fn with_origin(&self, origin: usize) -> impl Iterator<Item = usize> + '_ {
        let origins = self.origins.iter().enumerate();
        origins.filter_map(move |(k, &o)| (o == origin).then_some(k))
    }
}

fn samples(channels: &[Channel]) -> usize {
    channels.iter().map(Channel::samples).sum()
}

/// The layout of a record.
///
/// ```
/// use squeeze::{layout, Record, Refusal, Version};
///
/// let record = Record::under(Version::HOUSE).channel(40, 20).checked()?;
/// let layout = layout(record.bytes())?;
/// assert_eq!((layout.version, layout.steps.len()), (Version::HOUSE, 1));
/// assert_eq!((layout.channels.len(), layout.coarse), (2, 2));
/// # Ok::<(), Refusal>(())
/// ```
pub fn layout(record: &[u8]) -> Result<Layout, Refusal> {
    let mut counts = [0; 4];
    let mut steps = [[0; 3]; STEPS];
    let mut channels = [[0; 4]; CHANNELS];
    let mut origins = [0; CHANNELS];
    layout_numbers(
        record,
        &mut counts,
        steps.as_flattened_mut(),
        channels.as_flattened_mut(),
        &mut origins,
    )?;
    let [version, step_count, channel_count, coarse] = counts;
    let steps = &steps[..step_count as usize];
    let channels = &channels[..channel_count as usize];
    let origins = &origins[..channel_count as usize];
    Ok(Layout {
        version: Version(fitting(version)),
        steps: steps.iter().map(step).collect(),
        channels: channels.iter().map(channel).collect(),
        origins: origins.iter().map(|&origin| origin as usize).collect(),
        coarse: coarse as usize,
    })
}

/// The layout of a record as numbers, over the fronts of four slices; what is past
/// them stays. Counts: version, number of steps, number of channels, coarse count.
/// Three numbers a step and four a channel, as for
/// [`write_record`](crate::write_record), and one origin a channel. [`LAYOUT_ROOM`]
/// numbers hold every layout; a slice too short for this one is refused.
///
/// ```
/// use squeeze::{layout_numbers, Record, Refusal};
///
/// let record = Record::new().channel(8, 9).checked()?;
/// let (mut counts, mut steps, mut channels, mut origins) = ([0; 4], [0; 3], [0; 8], [0; 2]);
/// layout_numbers(record.bytes(), &mut counts, &mut steps, &mut channels, &mut origins)?;
/// assert_eq!((counts, steps), ([1, 1, 2, 2], [2, 0, 1]));
/// assert_eq!((channels, origins), ([8, 5, 0, 1, 8, 4, 0, 1], [0, 0]));
///
/// let short = layout_numbers(record.bytes(), &mut counts, &mut steps, &mut [0; 7], &mut origins);
/// assert_eq!(short, Err(Refusal::SliceLength));
/// # Ok::<(), Refusal>(())
/// ```
pub fn layout_numbers(
    record: &[u8],
    counts: &mut [u32],
    steps: &mut [u32],
    channels: &mut [u32],
    origins: &mut [u32],
) -> Result<(), Refusal> {
    // SAFETY: references are aligned and not null, for empty slices too, and
    // mutable ones overlap nothing.
    answer(unsafe {
        ffi::squeeze_layout(
            record.as_ptr(),
            record.len(),
            counts.as_mut_ptr(),
            counts.len(),
            steps.as_mut_ptr(),
            steps.len(),
            channels.as_mut_ptr(),
            channels.len(),
            origins.as_mut_ptr(),
            origins.len(),
        )
    })
}

fn step(&[flags, first, number]: &[u32; 3]) -> Step {
    Step {
        horizontal: flags & 1 == 1,
        in_place: flags & 2 == 2,
        first: fitting(first),
        number: fitting(number),
    }
}

fn channel(&[width, height, hshift, vshift]: &[u32; 4]) -> Channel {
    Channel::shifted(width, height, fitting(hshift), fitting(vshift))
}

/// A number of the core's in the type that holds it, never cut.
fn fitting<T: TryFrom<u32>>(number: u32) -> T {
    match number.try_into() {
        Ok(value) => value,
        Err(_) => panic!("the core gave {number} where no such number can be"),
    }
}

#[cfg(test)]
mod tests {
    use super::*;

    /// A palette and two channels: the second was squeezed, then its residual.
    fn three() -> Layout {
        Layout {
            version: Version::STANDARD,
            steps: vec![step(&[1, 2, 1]), step(&[0, 3, 1])],
            channels: vec![
                Channel::meta(5, 6),
                Channel::new(7, 8),
                Channel::shifted(3, 9, 1, 0),
                Channel::shifted(3, 5, 1, 1),
                Channel::shifted(3, 4, 1, 1),
            ],
            origins: vec![0, 1, 2, 2, 2],
            coarse: 2,
        }
    }

    #[test]
    fn samples_and_preview() {
        let layout = three();
        assert_eq!((layout.samples(), layout.coarse_samples()), (140, 86));
        assert_eq!(layout.metas(), 1);
        assert_eq!(layout.preview_channels(), &layout.channels[1..2]);
        assert_eq!(layout.preview_samples(), 30..86);
    }

    #[test]
    fn what_a_channel_refines() {
        let layout = three();
        assert_eq!(layout.picture_channels(), 3);
        let refines = [0, 1, 2, 3, 4].map(|k| layout.refines(k));
        assert_eq!(refines, [None, None, None, Some(2), Some(2)]);
        let averages = [0, 1, 2, 3].map(|origin| layout.averages(origin));
        assert_eq!(averages, [Some(0), Some(1), Some(2), None]);
        assert_eq!(layout.refinements(1).count(), 0);
        assert_eq!(layout.refinements(2).collect::<Vec<_>>(), [3, 4]);
        assert_eq!(layout.refinements(3).count(), 0);
    }

    #[test]
    fn numbers_as_steps_and_channels() {
        let flags = [0, 1, 2, 3].map(|flags| step(&[flags, 65_535, 1]));
        let flags = flags.map(|step| (step.horizontal, step.in_place));
        let (no, yes) = (false, true);
        assert_eq!(flags, [(no, no), (yes, no), (no, yes), (yes, yes)]);
        assert_eq!(channel(&[5, 6, 255, 255]), Channel::meta(5, 6));
        assert_eq!(channel(&[7, 8, 1, 30]).shifts, Some((1, 30)));
        let strip = channel(&[1_048_575, 16, 0, 0]);
        assert_eq!(strip.samples(), 16 * 1_048_575);
    }

    #[test]
    #[should_panic(expected = "the core gave 256")]
    fn numbers_are_not_cut() {
        channel(&[5, 5, 256, 0]);
    }

    #[test]
    fn more_samples_than_a_machine_counts() {
        let largest = Channel::new(u32::MAX, u32::MAX);
        assert!(largest.samples() >= u32::MAX as usize);
    }
}
