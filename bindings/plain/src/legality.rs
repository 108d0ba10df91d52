//! What makes a list of starts legal: dependences that hold, and operations that do not conflict.

use super::file::{Dependence, Operation, Use};

/// Where an operation meets a taken cell: how many cycles after its start, and in which slot. Places are ordered by cycle,
/// and in one cycle by slot.
#[derive(Clone, Copy, Debug, PartialEq, Eq, PartialOrd, Ord)]
pub struct Place {
    pub cycle: usize,
    pub slot: usize,
}

impl Place {
    /// The place as one number.
    pub fn number(&self) -> usize {
        32 * self.cycle + self.slot
    }
}

impl Use {
    /// The place of the use in a cycle.
    pub(super) fn place(&self, cycle: usize) -> Place {
        Place {
            cycle,
            slot: self.slot.into(),
        }
    }
}

impl Dependence {
    /// How many cycles after `from` the operation `to` has to start at an interval, or later; below 0, it may start
    /// so many cycles before `from`.
    pub fn wait(&self, interval: usize) -> i32 {
        self.delay - interval as i32 * self.distance
    }

    /// Whether the dependence holds with its two operations at these starts.
    pub fn holds(&self, from: u16, to: u16, interval: usize) -> bool {
        i32::from(to) - i32::from(from) >= self.wait(interval)
    }
}

impl Operation {
    /// The first place in which the operation meets itself: after as many cycles as the interval has, a use that is longer
    /// comes back to its first row. The first such use has the lowest slot.
    pub fn own_place(&self, interval: usize) -> Option<Place> {
        let mut uses = self.uses.iter();
        let longer = uses.find(|u| usize::from(u.duration) > interval)?;
        Some(longer.place(interval))
    }

    /// Whether the operation at a start conflicts with another one at its start.
    pub fn conflicts(&self, start: u16, other: &Operation, at: u16, interval: usize) -> bool {
        self.shared_places(start, other, at, interval)
            .next()
            .is_some()
    }

    /// The first place in which the operation at a start meets another one at its start.
    pub fn shared_place(
        &self,
        start: u16,
        other: &Operation,
        at: u16,
        interval: usize,
    ) -> Option<Place> {
        self.shared_places(start, other, at, interval).min()
    }

    /// For each use that meets one of another operation, the first place in which it does. An operation has one use of a slot.
    /// Of two uses that share a row, one begins in a row that the other covers.
    fn shared_places<'a>(
        &'a self,
        start: u16,
        other: &'a Operation,
        at: u16,
        interval: usize,
    ) -> impl Iterator<Item = Place> + 'a {
        let (row, other_row) = (usize::from(start) % interval, usize::from(at) % interval);
        // How many rows after the other's first one the operation begins, and the other way round.
        let after = (row + interval - other_row) % interval;
        let before = (other_row + interval - row) % interval;
        self.uses.iter().filter_map(move |u| {
            let v = other.uses.iter().find(|v| v.slot == u.slot)?;
            if after < usize::from(v.duration) {
                Some(u.place(0))
            } else if before < usize::from(u.duration) {
                Some(u.place(before))
            } else {
                None
            }
        })
    }
}
