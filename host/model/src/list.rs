//! Channel lists, and what a step makes of one.

use crate::{refusal, MAX_CHANNELS, MAX_SAMPLES, MAX_SHIFT, MAX_SIDE};

/// A channel: its sides, and its shifts unless it is meta.
#[derive(Clone, Copy, Debug, PartialEq, Eq)]
pub struct Channel {
    /// Samples in a row.
    pub width: u32,
    /// Rows.
    pub height: u32,
    /// Horizontal and vertical shift; none for meta.
    pub shifts: Option<(u8, u8)>,
}

/// Both shifts of a meta channel.
const META: u32 = 255;

/// A step: its direction, its place and its range.
#[derive(Clone, Copy, Debug, PartialEq, Eq)]
pub struct Step {
    /// Along the rows.
    pub horizontal: bool,
    /// Residuals straight after the range.
    pub in_place: bool,
    /// First channel.
    pub first: u32,
    /// Number of channels.
    pub number: u32,
}

impl Channel {
    /// Question 4 for one channel: its sides and its shifts, both 255 for meta.
    pub fn of_numbers([width, height, hshift, vshift]: [u32; 4]) -> Result<Channel, u32> {
        let shift = |shift: u32| u8::try_from(shift).ok().filter(|&s| s <= MAX_SHIFT);
        let shifts = match (hshift, vshift) {
            (META, META) => None,
            _ => match (shift(hshift), shift(vshift)) {
                (Some(h), Some(v)) => Some((h, v)),
                _ => return Err(refusal::FORM),
            },
        };
        if width > MAX_SIDE || height > MAX_SIDE {
            return Err(refusal::FORM);
        }
        Ok(Channel {
            width,
            height,
            shifts,
        })
    }

    /// Width, height and two shifts, both 255 for meta.
    pub fn numbers(&self) -> [u32; 4] {
        let (hshift, vshift) = self
            .shifts
            .map_or((META, META), |(h, v)| (h.into(), v.into()));
        [self.width, self.height, hshift, vshift]
    }

    /// Its sides as positions of a slice.
    pub fn size(&self) -> (usize, usize) {
        (self.width as usize, self.height as usize)
    }

    /// How many samples it has.
    pub fn samples(&self) -> usize {
        let (width, height) = self.size();
        width * height
    }

    /// Whether it is meta.
    pub fn meta(&self) -> bool {
        self.shifts.is_none()
    }

    /// Whether it is meta, of any size, or has no side above `group_dim`.
    pub fn is_meta_or_small(&self, group_dim: u32) -> bool {
        self.meta() || (self.width <= group_dim && self.height <= group_dim)
    }

    /// The average and the residual that a step makes of it.
    pub fn halves(&self, horizontal: bool) -> (Channel, Channel) {
        let mut average = *self;
        let mut residual = *self;
        if horizontal {
            average.width = self.width.div_ceil(2);
            residual.width = self.width - average.width;
        } else {
            average.height = self.height.div_ceil(2);
            residual.height = self.height - average.height;
        }
        let shifted = |(h, v)| if horizontal { (h + 1, v) } else { (h, v + 1) };
        average.shifts = self.shifts.map(shifted);
        residual.shifts = average.shifts;
        (average, residual)
    }
}

impl Step {
    /// Flags (1 for horizontal plus 2 for in place), first channel and number.
    pub fn numbers(&self) -> [u32; 3] {
        let flags = u32::from(self.horizontal) + 2 * u32::from(self.in_place);
        [flags, self.first, self.number]
    }

    /// Its range, as positions of a list that the step fits.
    pub fn range(&self) -> std::ops::Range<usize> {
        let first = self.first as usize;
        first..first + self.number as usize
    }

    /// Where the first residual goes in a list of `count` channels.
    pub fn residuals_at(&self, count: usize) -> usize {
        if self.in_place {
            self.range().end
        } else {
            count
        }
    }
}

/// The samples of a list.
pub fn total(list: &[Channel]) -> usize {
    list.iter().map(Channel::samples).sum()
}

/// Question 5, of whole numbers that no list is too large for.
pub fn check_total(list: &[Channel]) -> Result<(), u32> {
    let samples = |c: &Channel| u128::from(c.width) * u128::from(c.height);
    if list.iter().map(samples).sum::<u128>() > u128::from(MAX_SAMPLES) {
        return Err(refusal::SAMPLES);
    }
    Ok(())
}

/// Questions 7 to 11.
pub fn check_step(list: &[Channel], step: &Step) -> Result<(), u32> {
    let range = step.range();
    if step.number == 0 || range.end > list.len() {
        return Err(refusal::RANGE);
    }
    let channels = &list[range];
    let meta = channels[0].meta();
    if meta != channels[channels.len() - 1].meta() {
        return Err(refusal::MIXED);
    }
    if meta && !step.in_place {
        return Err(refusal::META_PLACE);
    }
    if channels.iter().any(|c| c.width == 0 || c.height == 0) {
        return Err(refusal::EMPTY);
    }
    let deep = |c: &Channel| match c.shifts {
        Some((h, v)) => (if step.horizontal { h } else { v }) >= MAX_SHIFT,
        None => false,
    };
    if list.len() + channels.len() > MAX_CHANNELS || channels.iter().any(deep) {
        return Err(refusal::DEEP);
    }
    Ok(())
}

/// The next list, or the refusal.
pub fn take_step(list: &[Channel], step: &Step) -> Result<Vec<Channel>, u32> {
    check_step(list, step)?;
    let mut next = list.to_vec();
    let at = step.residuals_at(list.len());
    for (n, k) in step.range().enumerate() {
        let (average, residual) = list[k].halves(step.horizontal);
        next[k] = average;
        next.insert(at + n, residual);
    }
    Ok(next)
}

/// The number of leading channels up to the first that is not meta and has a
/// side above `side` (document 02, A.2), which is the version's (A.11).
pub fn coarse_count(list: &[Channel], side: u32) -> usize {
    list.iter().take_while(|c| c.is_meta_or_small(side)).count()
}
