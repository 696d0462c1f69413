//! Two lent buffers alike, one for each side of a comparison.

/// What stands on either side of the lent part and may not be touched.
const MARGIN: usize = 16;

/// A number of a lent buffer.
pub trait Cell: Copy {
    /// What stands at a place before a call; other at every place near.
    fn marked(place: usize) -> Self;

    /// Its bits, by which it is held.
    fn bits(self) -> u64;

    fn shown(self) -> String;
}

impl Cell for i64 {
    fn marked(place: usize) -> i64 {
        i64::MIN + 7919 * place as i64
    }

    fn bits(self) -> u64 {
        self as u64
    }

    fn shown(self) -> String {
        self.to_string()
    }
}

impl Cell for u32 {
    /// Above every number that a record may hold.
    fn marked(place: usize) -> u32 {
        u32::MAX - 7919 * place as u32
    }

    fn bits(self) -> u64 {
        u64::from(self)
    }

    fn shown(self) -> String {
        self.to_string()
    }
}

impl Cell for u8 {
    /// Above every letter that is printed.
    fn marked(place: usize) -> u8 {
        0x80 | (37 * place) as u8
    }

    fn bits(self) -> u64 {
        u64::from(self)
    }

    fn shown(self) -> String {
        format!("{self:#04x}")
    }
}

impl Cell for f64 {
    fn marked(place: usize) -> f64 {
        -0.25 - place as f64
    }

    fn bits(self) -> u64 {
        self.to_bits()
    }

    fn shown(self) -> String {
        format!("{self} ({:016x})", self.to_bits())
    }
}

pub struct Twins<T> {
    before: Vec<T>,
    expected: Vec<T>,
    given: Vec<T>,
    /// How much of them is held: the lent part and its margins.
    whole: usize,
}

impl<T: Cell> Twins<T> {
    /// Buffers of which up to `most` numbers are lent.
    pub fn new(most: usize) -> Twins<T> {
        let before: Vec<T> = (0..most + 2 * MARGIN).map(T::marked).collect();
        Twins {
            expected: before.clone(),
            given: before.clone(),
            before,
            whole: 2 * MARGIN,
        }
    }

    /// Lends `room` numbers of each, with everything as it was before any call:
    /// first the buffer for what is expected, then the one for what is given.
    pub fn lend(&mut self, room: usize) -> (&mut [T], &mut [T]) {
        self.whole = room + 2 * MARGIN;
        let before = &self.before[..self.whole];
        self.expected[..self.whole].copy_from_slice(before);
        self.given[..self.whole].copy_from_slice(before);
        let lent = MARGIN..MARGIN + room;
        (&mut self.expected[lent.clone()], &mut self.given[lent])
    }

    /// What first differs, margins and all, in words.
    pub fn difference(&self) -> Option<String> {
        let pairs = || {
            let expected = self.expected[..self.whole].iter();
            expected.zip(&self.given[..self.whole])
        };
        // All of it in one go, which is quick; the place is looked for after.
        let apart = pairs().fold(0, |apart, (a, b)| apart | (a.bits() ^ b.bits()));
        if apart == 0 {
            return None;
        }
        let place = pairs().position(|(a, b)| a.bits() != b.bits())?;
        Some(format!(
            "place {} of what was lent, from 0, holds {} and not {}",
            place as i64 - MARGIN as i64,
            self.given[place].shown(),
            self.expected[place].shown()
        ))
    }
}

#[cfg(test)]
mod tests {
    use super::*;

    #[test]
    fn every_bit_of_what_is_lent_is_held() {
        let mut twins = Twins::<f64>::new(7);
        let (expected, given) = twins.lend(5);
        (expected[4], given[4]) = (0.0, 0.0);
        assert_eq!(twins.difference(), None);
        let (expected, given) = twins.lend(5);
        (expected[4], given[4]) = (0.0, -0.0);
        let said = twins.difference().unwrap();
        assert!(said.starts_with("place 4 of"), "{said}");
        twins.lend(5);
        assert_eq!(twins.difference(), None);
    }

    #[test]
    fn what_stands_around_is_held_too() {
        let mut twins = Twins::<i64>::new(4);
        for (touched, place) in [(MARGIN - 1, -1), (MARGIN + 3, 3), (MARGIN + 18, 18)] {
            twins.lend(3);
            twins.given[touched] += 1;
            let said = twins.difference().unwrap();
            assert!(said.starts_with(&format!("place {place} of")), "{said}");
        }
    }
}
