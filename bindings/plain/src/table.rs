//! The table of rows: one for each cycle of the interval, in which slot s is bit s - 1. The bit is 1 exactly where a placed
//! operation covers the slot in that row.

use super::file::{Operation, Use};
use super::legality::Place;
use std::ops::Range;

impl Use {
    /// The bit of the slot.
    fn bit(&self) -> u64 {
        1 << (self.slot - 1)
    }

    /// The rows in which the use covers its slot, from a start on.
    fn rows(&self, start: usize, interval: usize) -> impl Iterator<Item = usize> {
        (start..start + usize::from(self.duration)).map(move |cycle| cycle % interval)
    }

    /// The first place in which the use meets a taken row or, where it is longer than the interval, its own first one.
    fn taken_place(&self, start: usize, rows: &[u64]) -> Option<Place> {
        let mut covered = self.rows(start, rows.len()).enumerate();
        let taken =
            |&(cycle, row): &(usize, usize)| cycle == rows.len() || rows[row] & self.bit() != 0;
        let (cycle, _) = covered.find(taken)?;
        Some(self.place(cycle))
    }

    /// How many starts from this one on the table excludes; 0 where the use meets no taken row. One that it meets in cycle k
    /// it meets at the next k starts too, so the last such cycle is looked for. A use longer than the interval meets itself.
    fn excluded(&self, start: usize, rows: &[u64]) -> usize {
        let duration = usize::from(self.duration);
        if duration > rows.len() {
            return 1;
        }
        let mut row = (start + duration) % rows.len();
        for starts in (1..=duration).rev() {
            row = if row == 0 { rows.len() } else { row } - 1;
            if rows[row] & self.bit() != 0 {
                return starts;
            }
        }
        0
    }
}

impl Operation {
    /// Whether the operation at a start conflicts neither with itself nor with what is in the table.
    pub fn fits(&self, start: usize, rows: &[u64]) -> bool {
        self.uses.iter().all(|u| {
            usize::from(u.duration) <= rows.len()
                && u.rows(start, rows.len())
                    .all(|row| rows[row] & u.bit() == 0)
        })
    }

    /// The first place in which the operation at a start meets what is in the table, or itself.
    pub fn taken_place(&self, start: usize, rows: &[u64]) -> Option<Place> {
        self.uses
            .iter()
            .filter_map(|u| u.taken_place(start, rows))
            .min()
    }

    /// The first start of a range at which it conflicts with neither.
    pub fn next_free(&self, starts: Range<usize>, rows: &[u64]) -> Option<usize> {
        let mut start = starts.start;
        while start < starts.end {
            let mut excluded = self.uses.iter().map(|u| u.excluded(start, rows));
            match excluded.find(|&starts| starts > 0) {
                Some(starts) => start += starts,
                None => return Some(start),
            }
        }
        None
    }

    /// Enters the operation at a start.
    pub fn reserve(&self, start: usize, rows: &mut [u64]) {
        for u in &self.uses {
            for row in u.rows(start, rows.len()) {
                rows[row] |= u.bit();
            }
        }
    }

    /// Takes the operation out again.
    pub fn release(&self, start: usize, rows: &mut [u64]) {
        for u in &self.uses {
            for row in u.rows(start, rows.len()) {
                rows[row] &= !u.bit();
            }
        }
    }
}
