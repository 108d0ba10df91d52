// Whether loops have a schedule at an interval, found out by going through the rows of the reservation table. Nothing of it is
// proved: it tells what the planner could have reached, and no answer of the library rests on it. For each interval with its file
// it prints a word: `yes`, where a list of starts below the horizon was found, which mw_verify judged legal; `no`, where all rows
// have been gone through and there is none; or `unknown`.
//
//     attainable INTERVAL FILE ..
//
//     rustc --edition 2021 -C opt-level=3 -C codegen-units=1 -L target/staticlib bench/attainable.rs -o target/bench/attainable
//
// At an interval, legality depends on the rows alone (start mod interval) but for the dependences, and these only ask that
// starts lie far enough apart; once all rows are chosen, a start can be moved by whole intervals. So operation after operation
// is given a row in which its slots are free. Between two operations with rows, a start can be later than the other by certain
// numbers of cycles only, one in each interval: what dependences ask is rounded up to the next of them, and may then ask too much
// of a cycle of dependences. Then, or where slots are left with gaps too narrow for the operations to come, another row is tried.

#[allow(dead_code)] // nothing is timed
mod measure;
#[allow(dead_code)] // only files are read
#[path = "../bindings/plain/src/lib.rs"]
mod plain;
#[allow(dead_code)] // only the judge is called
mod proved;
#[allow(dead_code)] // only the judge is called
#[path = "../bindings/rust/src/sys.rs"]
mod sys;

use measure::{number, read};
use plain::file::{Loop, Use};
use proved::{proved_verify, Memory};
use std::cmp::Reverse;
use std::{env, process};

// As in bench/planner.rs.
const HORIZON: i32 = 256;

// How many rows are chosen before it is given up: once for the slots alone, then in each of so many orders.
const CHOICES_ALONE: usize = 1_000_000;
const CHOICES: usize = 50_000;
const ORDERS: u64 = 4;

// Slots are numbered from 1.
const SLOTS: usize = 25;

// What no path between two operations asks for; adding up a few of them stays in range.
const NOTHING: i32 = i32::MIN / 8;

enum Ended {
    Found(Vec<i32>), // a row for each operation
    None,
    GaveUp,
}

// Operations with rows, and what follows from them.
#[derive(Clone)]
struct Table {
    interval: i32,
    rows: Vec<Option<i32>>,    // of each operation that has one
    taken: Vec<[bool; SLOTS]>, // for each row, the slots that are taken in it
    waits: Vec<Vec<i32>>, // waits[i][j]: how many cycles after operation i operation j starts at least
}

impl Table {
    // With no rows chosen. None where dependences alone ask too much.
    fn new(code: &Loop, interval: i32) -> Option<Table> {
        let number = code.operations.len();
        let mut table = Table {
            interval,
            rows: vec![None; number],
            taken: vec![[false; SLOTS]; interval as usize],
            waits: vec![vec![NOTHING; number]; number],
        };
        let mut dependences = code.dependences.iter();
        let possible = dependences.all(|d| table.raise(d.from, d.to, d.wait(interval as usize)));
        possible.then_some(table)
    }

    // Asks for so many cycles between two operations, and for what follows from it by all other waits. False where an operation
    // would have to start after itself.
    fn raise(&mut self, from: usize, to: usize, wait: i32) -> bool {
        if wait <= self.waits[from][to] {
            return true;
        }
        self.waits[from][to] = wait;
        let after = self.waits[to].clone();
        for (first, waits) in self.waits.iter_mut().enumerate() {
            let before = if first == from { 0 } else { waits[from] };
            if before == NOTHING {
                continue;
            }
            waits[to] = waits[to].max(before + wait);
            for (last, &rest) in after
                .iter()
                .enumerate()
                .filter(|(_, &rest)| rest != NOTHING)
            {
                waits[last] = waits[last].max(before + wait + rest);
            }
        }
        self.waits[from][from] <= 0
    }

    // The least number of cycles that is not below a wait and leads from one row to another.
    fn rounded(&self, wait: i32, from: i32, to: i32) -> i32 {
        wait + (to - from - wait).rem_euclid(self.interval)
    }

    // The row of the cycle that is so many after another row.
    fn row(&self, from: i32, cycles: i32) -> usize {
        (from + cycles).rem_euclid(self.interval) as usize
    }

    // Whether an operation's slots are free from a row on, and each operation with a row can lie before and after it.
    fn fits(&self, code: &Loop, op: usize, row: i32) -> bool {
        let free = |u: &Use| {
            i32::from(u.duration) <= self.interval
                && (0..i32::from(u.duration))
                    .all(|k| !self.taken[self.row(row, k)][usize::from(u.slot)])
        };
        code.operations[op].uses.iter().all(free)
            && self.placed().all(|(other, of)| {
                let (after, before) = (self.waits[other][op], self.waits[op][other]);
                after == NOTHING
                    || before == NOTHING
                    || self.rounded(after, of, row) + self.rounded(before, row, of) <= 0
            })
    }

    // The operations that have a row, with it.
    fn placed(&self) -> impl Iterator<Item = (usize, i32)> + '_ {
        self.rows
            .iter()
            .enumerate()
            .filter_map(|(op, row)| row.map(|row| (op, row)))
    }

    // The rows that an operation can have. The first operation of all is given row 0: to move all starts by some cycles changes nothing.
    fn rows_of(&self, code: &Loop, op: usize) -> Vec<i32> {
        let last = if self.placed().next().is_none() {
            1
        } else {
            self.interval
        };
        (0..last).filter(|&row| self.fits(code, op, row)).collect()
    }

    // By how many cycles the cycles of dependences through an operation can be longer.
    fn slack(&self, op: usize) -> i32 {
        let round = |other: usize| -(self.waits[op][other] + self.waits[other][op]);
        (0..self.rows.len()).map(round).min().unwrap_or(0)
    }

    // The table with one operation more. None where that asks too much.
    fn with(&self, code: &Loop, op: usize, row: i32) -> Option<Table> {
        let mut table = self.clone();
        table.rows[op] = Some(row);
        for u in &code.operations[op].uses {
            for k in 0..i32::from(u.duration) {
                let at = table.row(row, k);
                table.taken[at][usize::from(u.slot)] = true;
            }
        }
        (table.round_all() && table.has_room(code)).then_some(table)
    }

    // Rounds the waits between operations with rows up until all are. False where they then ask too much.
    fn round_all(&mut self) -> bool {
        let placed: Vec<(usize, i32)> = self.placed().collect();
        loop {
            let mut raised = false;
            for &(one, from) in &placed {
                for &(other, to) in &placed {
                    let wait = self.waits[one][other];
                    if one == other || wait == NOTHING || self.rounded(wait, from, to) == wait {
                        continue;
                    }
                    raised = true;
                    if !self.raise(one, other, self.rounded(wait, from, to)) {
                        return false;
                    }
                }
            }
            if !raised {
                return true;
            }
        }
    }

    // Whether the operations without rows find gaps that are wide enough, each slot taken by itself.
    fn has_room(&self, code: &Loop) -> bool {
        (1..SLOTS).all(|slot| {
            let left = code
                .operations
                .iter()
                .zip(&self.rows)
                .filter(|(_, row)| row.is_none());
            let durations: Vec<usize> = left
                .flat_map(|(op, _)| &op.uses)
                .filter(|u| usize::from(u.slot) == slot)
                .map(|u| usize::from(u.duration))
                .collect();
            let Some(&least) = durations.iter().min() else {
                return true;
            };
            let gaps = self.gaps(slot);
            durations.len() <= gaps.iter().map(|gap| gap / least).sum()
                && durations.iter().sum::<usize>() <= gaps.iter().sum()
        })
    }

    // How many rows in a row are free for a slot, gap by gap; the last row is before the first.
    fn gaps(&self, slot: usize) -> Vec<usize> {
        let free: Vec<bool> = self.taken.iter().map(|row| !row[slot]).collect();
        let Some(end) = free.iter().position(|&free| !free) else {
            return vec![free.len()];
        };
        let round: Vec<bool> = free[end..].iter().chain(&free[..end]).copied().collect();
        round.split(|&free| !free).map(<[bool]>::len).collect()
    }
}

// The order in which rows are tried: numbers drawn one after the other (xorshift).
struct Draws(u64);

impl Draws {
    fn below(&mut self, limit: usize) -> usize {
        self.0 ^= self.0 << 13;
        self.0 ^= self.0 >> 7;
        self.0 ^= self.0 << 17;
        (self.0 % limit as u64) as usize
    }
}

// The next operation to be given a row, and the rows to try; None where all have one.
type Next<'a> = &'a mut dyn FnMut(&Table) -> Option<(usize, Vec<i32>)>;

// Gives rows to the operations that have none.
fn fill(code: &Loop, table: &Table, next: Next, choices: &mut usize) -> Ended {
    let Some((op, rows)) = next(table) else {
        return Ended::Found(table.placed().map(|(_, row)| row).collect());
    };
    for row in rows {
        if *choices == 0 {
            return Ended::GaveUp;
        }
        *choices -= 1;
        let Some(more) = table.with(code, op, row) else {
            continue;
        };
        match fill(code, &more, next, choices) {
            Ended::None => {}
            ended => return ended,
        }
    }
    Ended::None
}

// The operation with the fewest rows to choose from, and of several the one that cycles of dependences hold closest.
fn closest(code: &Loop, table: &Table, draws: &mut Draws) -> Option<(usize, Vec<i32>)> {
    let open = (0..table.rows.len()).filter(|&op| table.rows[op].is_none());
    let with_rows = open.map(|op| (op, table.rows_of(code, op)));
    let (op, mut rows) =
        with_rows.min_by_key(|(op, rows)| (rows.len(), table.slack(*op), draws.below(64)))?;
    let first = first_row(table, op, draws);
    rows.sort_by_key(|&row| table.row(row, -first));
    Some((op, rows))
}

// The next operation of an order in which those that hold the same slots for as long follow one another. Where there are no
// dependences these can change places, so they are given rising rows.
fn alike(code: &Loop, table: &Table, order: &[usize]) -> Option<(usize, Vec<i32>)> {
    let at = order.iter().position(|&op| table.rows[op].is_none())?;
    let op = order[at];
    let before = at.checked_sub(1).map(|at| order[at]);
    let same = before.filter(|&other| code.operations[other].uses == code.operations[op].uses);
    let above = same.and_then(|other| table.rows[other]).unwrap_or(-1);
    let rows = table
        .rows_of(code, op)
        .into_iter()
        .filter(|&row| row > above);
    Some((op, rows.collect()))
}

// Whether the slots alone leave no room, dependences forgotten.
fn too_crowded(code: &Loop, interval: i32) -> bool {
    let bare = Loop {
        operations: code.operations.clone(),
        dependences: Vec::new(),
    };
    let holds = |op: &usize| {
        bare.operations[*op]
            .uses
            .iter()
            .map(|u| (u.slot, u.duration))
            .collect::<Vec<_>>()
    };
    let cells = |op: &usize| {
        bare.operations[*op]
            .uses
            .iter()
            .map(|u| u32::from(u.duration))
            .sum::<u32>()
    };
    let mut order: Vec<usize> = (0..bare.operations.len()).collect();
    order.sort_by_key(|op| (Reverse(cells(op)), holds(op)));
    let table = Table::new(&bare, interval);
    let ended = table.map(|table| {
        fill(
            &bare,
            &table,
            &mut |table| alike(&bare, table, &order),
            &mut { CHOICES_ALONE },
        )
    });
    matches!(ended, Some(Ended::None))
}

// The row to try first: where what comes before an operation lets it start, or now and then any.
fn first_row(table: &Table, op: usize, draws: &mut Draws) -> i32 {
    let interval = table.interval as usize;
    let waits = table
        .placed()
        .filter(|&(other, _)| table.waits[other][op] != NOTHING);
    let latest = waits.max_by_key(|&(other, _)| table.waits[other][op]);
    match latest {
        Some((other, row)) if draws.below(8) != 0 => table.row(row, table.waits[other][op]) as i32,
        _ => draws.below(interval) as i32,
    }
}

// The least starts with these rows, each moved later by whole intervals until the dependences hold.
fn starts_of(code: &Loop, interval: i32, rows: &[i32]) -> Vec<i32> {
    let mut starts = rows.to_vec();
    loop {
        let mut moved = false;
        for d in &code.dependences {
            let least = starts[d.from] + d.wait(interval as usize);
            while starts[d.to] < least {
                starts[d.to] += interval;
                moved = true;
            }
        }
        if !moved {
            return starts;
        }
    }
}

// Starts with these rows, or the same moved by some cycles, that end below the horizon.
fn below_horizon(code: &Loop, interval: i32, rows: &[i32]) -> Option<Vec<u16>> {
    let moved = |by: i32| {
        rows.iter()
            .map(|row| (row + by).rem_euclid(interval))
            .collect::<Vec<i32>>()
    };
    let lists = (0..interval).map(|by| starts_of(code, interval, &moved(by)));
    let mut fitting = lists.filter(|starts| starts.iter().all(|&start| start < HORIZON));
    fitting
        .next()
        .map(|starts| starts.iter().map(|&start| start as u16).collect())
}

fn judge(file: &[u8], interval: i32, starts: &[u16]) -> Result<(), String> {
    let mut verdict = Memory::new(0);
    proved_verify(file, interval as usize, starts, &mut verdict);
    match (verdict.result, verdict.answer[1]) {
        (0, 0) => Ok(()),
        _ => Err("mw_verify finds the list not legal".to_string()),
    }
}

// Whether a loop has a schedule at an interval, where that comes out.
fn attainable(file: &[u8], interval: i32) -> Result<Option<bool>, String> {
    let code = plain::file::read(file).map_err(|refusal| format!("refused {}", refusal.number))?;
    let Some(table) = Table::new(&code, interval) else {
        return Ok(Some(false));
    };
    if too_crowded(&code, interval) {
        return Ok(Some(false));
    }
    for seed in 1..=ORDERS {
        let draws = &mut Draws(seed);
        match fill(
            &code,
            &table,
            &mut |table| closest(&code, table, draws),
            &mut { CHOICES },
        ) {
            Ended::None => return Ok(Some(false)),
            Ended::GaveUp => {}
            Ended::Found(rows) => {
                if let Some(starts) = below_horizon(&code, interval, &rows) {
                    return judge(file, interval, &starts).map(|()| Some(true));
                }
            }
        }
    }
    Ok(None)
}

fn answers(words: &[String]) -> Result<(), String> {
    for two in words.chunks(2) {
        let [interval, path] = two else {
            return Err("usage: attainable INTERVAL FILE ..".to_string());
        };
        let interval = number(interval)?;
        if !(1..=plain::LONGEST).contains(&interval) {
            return Err(format!("{interval} is no interval"));
        }
        let (_, file) = read(path)?;
        let told = attainable(&file, interval as i32).map_err(|why| format!("{path}: {why}"))?;
        let word = told.map_or("unknown", |yes| if yes { "yes" } else { "no" });
        println!("{word}");
    }
    Ok(())
}

fn main() {
    let words: Vec<String> = env::args().skip(1).collect();
    if let Err(why) = answers(&words) {
        eprintln!("attainable: {why}");
        process::exit(1);
    }
}
