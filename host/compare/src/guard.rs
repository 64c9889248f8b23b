//! A lent slice between two guards.

/// Elements before and after a lent slice.
const WIDTH: usize = 8;

/// A slice to lend, between elements that nobody may write.
pub struct Lent<T> {
    buffer: Vec<T>,
    guard: T,
}

impl<T: Copy + PartialEq> Lent<T> {
    /// A copy of `contents` with `guard` on both sides.
    pub fn new(contents: &[T], guard: T) -> Lent<T> {
        let mut buffer = Vec::with_capacity(contents.len() + 2 * WIDTH);
        buffer.extend_from_slice(&[guard; WIDTH]);
        buffer.extend_from_slice(contents);
        buffer.extend_from_slice(&[guard; WIDTH]);
        Lent { buffer, guard }
    }

    /// The lent part.
    pub fn slice(&self) -> &[T] {
        &self.buffer[WIDTH..self.buffer.len() - WIDTH]
    }

    /// The lent part, to be written.
    pub fn slice_mut(&mut self) -> &mut [T] {
        let end = self.buffer.len() - WIDTH;
        &mut self.buffer[WIDTH..end]
    }

    /// Whether the guards stand, and between them are `contents`.
    pub fn holds(&self, contents: &[T]) -> bool {
        let end = self.buffer.len() - WIDTH;
        let mut guards = self.buffer[..WIDTH].iter().chain(&self.buffer[end..]);
        guards.all(|&g| g == self.guard) && self.slice() == contents
    }
}

#[cfg(test)]
mod tests {
    use super::*;

    #[test]
    fn each_element_is_watched() {
        let lent = || Lent::new(&[1, 2, 3], 9);
        assert!(lent().holds(&[1, 2, 3]));
        assert!(!lent().holds(&[1, 2]));
        for k in 0..2 * WIDTH + 3 {
            let mut changed = lent();
            changed.buffer[k] += 1;
            assert!(!changed.holds(&[1, 2, 3]), "element {k}");
        }
    }
}
