//! Where operations conflict.

use std::fmt;

/// Where an operation meets a taken cell of the reservation table: a cycle, and a slot that is taken in it.
///
/// It is the first such cycle and, in that cycle, the lowest such slot. At a start `t` the cell is in row
/// `(t + cycle) % interval`. Which cells are taken depends on what was asked:
///
/// | Asked | Whose cycle it is | Taken |
/// |---|---|---|
/// | [`Call::Place`] | the operation's | what the placed operations cover, and what the operation itself covers in an earlier cycle |
/// | [`Call::Force`] | the operation's | what the operation itself covers in an earlier cycle |
/// | [`verify`], two operations | the second one's | what the first one covers |
/// | [`verify`], twice the same operation | the operation's | what it covers itself in an earlier cycle |
///
/// The library gives a place as one number, 32 times the cycle and the slot; [`Place::of`] takes it apart.
///
/// [`Call::Place`]: crate::Call::Place
/// [`Call::Force`]: crate::Call::Force
/// [`verify`]: crate::verify
///
/// ```
/// use mwelitunga::Place;
///
/// let place = Place::of(97);
/// assert_eq!(place, Place { cycle: 3, slot: 1 });
/// assert_eq!(place.number(), 97);
/// assert_eq!(place.to_string(), "cycle 3, slot 1");
/// ```
#[derive(Clone, Copy, Debug, PartialEq, Eq, PartialOrd, Ord, Hash)]
pub struct Place {
    /// The cycle, 0 to 15, counted from the start of the operation.
    pub cycle: usize,
    /// The slot, 1 to 24.
    pub slot: usize,
}

impl Place {
    /// The place that has a number: the detail of refusal 17, or `answer[4]` of [`sys::mw_verify`] for a conflict. Any
    /// number may be given.
    ///
    /// [`sys::mw_verify`]: crate::sys::mw_verify
    pub fn of(number: u64) -> Place {
        Place {
            cycle: (number / 32) as usize,
            slot: (number % 32) as usize,
        }
    }

    /// The number of the place.
    pub fn number(self) -> u64 {
        32 * self.cycle as u64 + self.slot as u64
    }
}

impl fmt::Display for Place {
    fn fmt(&self, f: &mut fmt::Formatter<'_>) -> fmt::Result {
        write!(f, "cycle {}, slot {}", self.cycle, self.slot)
    }
}
