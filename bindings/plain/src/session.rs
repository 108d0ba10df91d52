//! A session: a table of rows in which operations are placed, forced, removed and taken back. A call changes the rows of the
//! operations that come or go and no others, and the numbers of free rows by their durations; a refused call changes
//! nothing.

use super::file::{read, Dependence, Operation, OPERATIONS_MOST};
use super::legality::Place;
use super::{check, check_range, refused, Refusal, LONGEST};

/// The start of an operation that is not placed.
pub const NOT_PLACED: u16 = 65_535;

/// The most checkpoints that are open at a time.
const CHECKPOINTS_MOST: usize = 16;

/// The start of each operation; places past the last operation are not placed.
pub type Starts = [u16; OPERATIONS_MOST];

/// In how many rows each slot is free, slot 1 first.
pub type FreeRows = [u16; 24];

pub struct Session<'a> {
    operations: Vec<Operation>,
    /// The dependences of each operation, from it or to it, with their numbers and in the order of these.
    dependences: Vec<Vec<(usize, Dependence)>>,
    horizon: usize,
    /// One row for each cycle of the interval.
    rows: &'a mut [u64],
    starts: Starts,
    free_rows: FreeRows,
    /// For each open checkpoint, a copy of the starts.
    checkpoints: Vec<Starts>,
}

impl<'a> Session<'a> {
    /// Opens a session on a file, and clears the rows of the interval; refusals 1 to 6, 7 and 20.
    pub fn open(
        file: &[u8],
        interval: usize,
        horizon: usize,
        rows: &'a mut [u64],
    ) -> Result<Self, Refusal> {
        let code = read(file)?;
        check_range(interval, LONGEST, 1)?;
        check_range(horizon, LONGEST, 2)?;
        check(rows.len() >= interval, 20, rows.len())?;
        let rows = &mut rows[..interval];
        rows.fill(0);
        let mut dependences = vec![Vec::new(); code.operations.len()];
        for (number, &d) in code.dependences.iter().enumerate() {
            dependences[d.from].push((number, d));
            if d.to != d.from {
                dependences[d.to].push((number, d));
            }
        }
        Ok(Session {
            operations: code.operations,
            dependences,
            horizon,
            rows,
            starts: [NOT_PLACED; OPERATIONS_MOST],
            free_rows: [interval as u16; 24],
            checkpoints: Vec::with_capacity(CHECKPOINTS_MOST),
        })
    }

    /// The starts.
    pub fn starts(&self) -> &Starts {
        &self.starts
    }

    /// In how many rows each slot is free.
    pub fn free_rows(&self) -> &FreeRows {
        &self.free_rows
    }

    /// How many checkpoints are open.
    pub fn checkpoints(&self) -> usize {
        self.checkpoints.len()
    }

    /// Places an operation at a start.
    pub fn place(&mut self, op: usize, start: usize) -> Result<(), Refusal> {
        let start = self.check_free(op, start)?;
        self.check_dependences(op, start, |_| true)?;
        check_conflict(self.operations[op].taken_place(start.into(), self.rows))?;
        self.put(op, start);
        Ok(())
    }

    /// Places an operation at a start and removes first what is in its way; the operations removed, a bit each.
    pub fn force(&mut self, op: usize, start: usize) -> Result<u64, Refusal> {
        let start = self.check_free(op, start)?;
        self.check_dependences(op, start, |d| d.from == d.to)?;
        check_conflict(self.operations[op].own_place(self.rows.len()))?;
        let displaced = self.in_the_way(op, start);
        for other in 0..self.operations.len() {
            if displaced & (1 << other) != 0 {
                self.take_out(other);
            }
        }
        self.put(op, start);
        Ok(displaced)
    }

    /// Removes a placed operation.
    pub fn remove(&mut self, op: usize) -> Result<(), Refusal> {
        check(op < self.operations.len(), 12, op)?;
        check(self.starts[op] != NOT_PLACED, 14, op)?;
        self.take_out(op);
        Ok(())
    }

    /// Opens a checkpoint, which keeps a copy of the starts; its number, from 1.
    pub fn checkpoint(&mut self) -> Result<usize, Refusal> {
        check(self.checkpoints.len() < CHECKPOINTS_MOST, 18, 0)?;
        self.checkpoints.push(self.starts);
        Ok(self.checkpoints.len())
    }

    /// Forgets the newest checkpoint.
    pub fn release(&mut self) -> Result<(), Refusal> {
        check(self.checkpoints.pop().is_some(), 19, 0)
    }

    /// Goes back to the starts of a checkpoint. It stays open, and later ones are forgotten.
    pub fn rollback(&mut self, checkpoint: usize) -> Result<(), Refusal> {
        let open = (1..=self.checkpoints.len()).contains(&checkpoint);
        check(open, 19, 0)?;
        self.checkpoints.truncate(checkpoint);
        let wanted = self.checkpoints[checkpoint - 1];
        let wanted = wanted.iter().enumerate().take(self.operations.len());
        // What differs is taken out first, all of it, so that what is put in then finds its cells free.
        for (op, &start) in wanted.clone() {
            if self.starts[op] != start && self.starts[op] != NOT_PLACED {
                self.take_out(op);
            }
        }
        for (op, &start) in wanted {
            if self.starts[op] != start {
                self.put(op, start);
            }
        }
        Ok(())
    }

    /// A start for an operation that is there and not placed; refusals 12, 13 and 15.
    fn check_free(&self, op: usize, start: usize) -> Result<u16, Refusal> {
        check(op < self.operations.len(), 12, op)?;
        check(self.starts[op] == NOT_PLACED, 13, op)?;
        check(start < self.horizon, 15, op)?;
        Ok(start as u16)
    }

    /// Refusal 16, with the first of some dependences that an operation at a start breaks.
    fn check_dependences(
        &self,
        op: usize,
        start: u16,
        asked: impl Fn(&Dependence) -> bool,
    ) -> Result<(), Refusal> {
        let mut dependences = self.dependences[op].iter();
        match dependences.find(|(_, d)| asked(d) && self.breaks(d, op, start)) {
            Some(&(number, _)) => refused(16, number),
            None => Ok(()),
        }
    }

    /// Whether a dependence of an operation, with itself or a placed one, does not hold with the operation at a start.
    fn breaks(&self, d: &Dependence, op: usize, start: u16) -> bool {
        let start_of = |end: usize| if end == op { start } else { self.starts[end] };
        let (from, to) = (start_of(d.from), start_of(d.to));
        from != NOT_PLACED && to != NOT_PLACED && !d.holds(from, to, self.rows.len())
    }

    /// The placed operations that are in the way of an operation at a start, a bit each: those that it conflicts with, and
    /// those with which it breaks a dependence. Only where the table has no room for it are they asked one by one.
    fn in_the_way(&self, op: usize, start: u16) -> u64 {
        let mut mask = 0;
        for (_, d) in &self.dependences[op] {
            if self.breaks(d, op, start) {
                let other = if d.from == op { d.to } else { d.from };
                mask |= 1 << other;
            }
        }
        let forced = &self.operations[op];
        if !forced.fits(start.into(), self.rows) {
            for (other, (operation, &at)) in self.operations.iter().zip(&self.starts).enumerate() {
                if at != NOT_PLACED && forced.conflicts(start, operation, at, self.rows.len()) {
                    mask |= 1 << other;
                }
            }
        }
        mask
    }

    /// Enters an operation at a start.
    fn put(&mut self, op: usize, start: u16) {
        let operation = &self.operations[op];
        operation.reserve(start.into(), self.rows);
        for u in &operation.uses {
            self.free_rows[usize::from(u.slot) - 1] -= u16::from(u.duration);
        }
        self.starts[op] = start;
    }

    /// Takes a placed operation out.
    fn take_out(&mut self, op: usize) {
        let operation = &self.operations[op];
        operation.release(self.starts[op].into(), self.rows);
        for u in &operation.uses {
            self.free_rows[usize::from(u.slot) - 1] += u16::from(u.duration);
        }
        self.starts[op] = NOT_PLACED;
    }
}

/// Refusal 17, with the first place in which an operation meets a taken cell, where there is one.
fn check_conflict(place: Option<Place>) -> Result<(), Refusal> {
    match place {
        Some(place) => refused(17, place.number()),
        None => Ok(()),
    }
}
