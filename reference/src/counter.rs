//! The transfer counter's step, request R-6: up or down, with a word on its end.

/// The counter has 24 bits.
const LAST: u32 = 0x00FF_FFFF;

#[derive(Clone, Copy, Debug, PartialEq, Eq)]
pub enum Direction {
    Up,
    Down,
}

/// The counter after a step, and whether that step came to the end.
///
/// Data book, 34Bh, SWRAP: the counter "decrements from 000001h to 000000h",
/// or increments from its highest value to 0. 348h: from 0 it goes down to
/// the highest value, so that a 0 that is loaded counts 16,777,216 bytes.
pub fn step(direction: Direction, counter: u32) -> (u32, bool) {
    match direction {
        Direction::Up if counter == LAST => (0, true),
        Direction::Up => (counter + 1, false),
        Direction::Down if counter == 0 => (LAST, false),
        Direction::Down => (counter - 1, counter == 1),
    }
}

#[cfg(test)]
mod tests {
    use super::*;

    /// How often the end is passed in some steps, and where they lead.
    fn steps(direction: Direction, start: u32, count: u32) -> (u32, u32) {
        (0..count).fold((start, 0), |(counter, ends), _| {
            let (counter, end) = step(direction, counter);
            (counter, ends + u32::from(end))
        })
    }

    #[test]
    fn the_end_from_both_sides() {
        assert_eq!(step(Direction::Up, LAST), (0, true));
        assert_eq!(step(Direction::Up, 0), (1, false));
        assert_eq!(step(Direction::Down, 1), (0, true));
        assert_eq!(step(Direction::Down, 0), (LAST, false));
    }

    #[test]
    fn a_step_back_gives_the_value_again() {
        for counter in [0, 1, 2, 255, 256, 65_535, 65_536, LAST - 1, LAST] {
            assert_eq!(
                step(Direction::Down, step(Direction::Up, counter).0).0,
                counter
            );
            assert_eq!(
                step(Direction::Up, step(Direction::Down, counter).0).0,
                counter
            );
        }
    }

    #[test]
    fn a_count_outside_follows_two_rounds() {
        assert_eq!(steps(Direction::Up, 1, 2 * (LAST + 1)), (1, 2));
        assert_eq!(steps(Direction::Down, 1, LAST + 2), (0, 2));
        assert_eq!(steps(Direction::Down, 0, LAST + 1), (0, 1));
    }
}
