// The search and the planner on loops like those of a filter compiler: which get a schedule, at what interval, and how long a call
// takes. It prints a line of JSON for each file; bench/run makes tables of them.
//
//     planner TURNS OWN SHUFFLED ..        pairs of files: a loop in its own numbering, and the same loop shuffled
//
// Every list that a call finds is judged by mw_verify. The run ends with a message and status 1 where a list is not legal or
// not below the horizon, where an interval is below the larger bound, where two turns of a call differ, or where answers
// contradict each other (`agree`, `agree_on_search`, `agree_on_smallest`).
//
//     rustc --edition 2021 -C opt-level=3 -C codegen-units=1 -L target/staticlib bench/planner.rs -o target/bench/planner

mod measure;
#[allow(dead_code)] // sessions are not measured here
mod proved;
#[allow(dead_code)] // not every function is measured
#[path = "../bindings/rust/src/sys.rs"]
mod sys;

use measure::{number, read, timed, Side};
use proved::*;
use std::hint::black_box;
use std::{env, process};

// What the programs `schedule` and `plan` ask for.
const ASKED: Asked = Asked::below(256);

// The refusals that say how a search ended, and the verdict on a legal list (include/mwelitunga.h).
const NO_SCHEDULE: usize = 10;
const OUT_OF_BUDGET: usize = 11;
const LEGAL: u64 = 0;

// A loop file, its number of operations, and the larger of its two bounds.
struct Loop {
    file: Vec<u8>,
    operations: usize,
    bound: usize,
}

// What a call came to: its result, and the interval of the list that it found, which was judged legal.
struct Outcome {
    result: usize,
    interval: Option<usize>,
    answer: [u64; 8],
}

// What was measured on a file. `alone` is what the planner finds without a search, and `exact` the search that it makes where that
// is not at the larger bound.
struct Row {
    name: String,
    operations: usize,
    bound: usize,
    search: (Outcome, f64),
    plan: (Outcome, f64),
    alone: Outcome,
    exact: Option<Outcome>,
}

impl Loop {
    fn new(file: Vec<u8>) -> Result<Loop, String> {
        let (mut counts, mut bounds) = (Memory::new(0), Memory::new(0));
        proved_read(&file, &mut counts);
        proved_bounds(&file, &mut bounds);
        if bounds.result != 0 {
            return Err(format!("no bounds: refused {}", bounds.result));
        }
        Ok(Loop {
            operations: counts.answer[1] as usize,
            bound: bounds.answer[1].max(bounds.answer[2]) as usize,
            file,
        })
    }

    fn search(&self, asked: Asked, m: &mut Memory) {
        proved_search(black_box(&self.file), asked, m);
    }

    fn plan(&self, asked: Asked, m: &mut Memory) {
        proved_plan(black_box(&self.file), asked, m);
    }

    // What a call came to, with its list judged.
    fn judge(&self, left: &Memory) -> Result<Outcome, String> {
        let interval = match left.result {
            0 => Some(left.answer[1] as usize),
            NO_SCHEDULE | OUT_OF_BUDGET => None,
            other => return Err(format!("refused {other} at {}", left.answer[0])),
        };
        if let Some(interval) = interval {
            self.judge_list(interval, &left.starts[..self.operations])?;
        }
        Ok(Outcome {
            result: left.result,
            interval,
            answer: left.answer,
        })
    }

    // Whether a list is legal, below the horizon, and at an interval that can be.
    fn judge_list(&self, interval: usize, starts: &[u16]) -> Result<(), String> {
        let mut verdict = Memory::new(0);
        proved_verify(&self.file, interval, starts, &mut verdict);
        if verdict.result != 0 || verdict.answer[1] != LEGAL {
            return Err(format!("mw_verify finds the list not legal at {interval}"));
        }
        if starts.iter().any(|&start| start as usize >= ASKED.horizon) {
            return Err("a start is not below the horizon".to_string());
        }
        if interval < self.bound {
            return Err(format!("{interval} is below the bound {}", self.bound));
        }
        Ok(())
    }

    // A call that is made once and not timed.
    fn once(&self, call: Side) -> Result<Outcome, String> {
        let mut left = Memory::new(0);
        call(&mut left);
        self.judge(&left)
    }

    // What a call comes to, and the median of its microseconds. All turns have to leave the same; the first only brings all into
    // the caches, and is not counted.
    fn measured(&self, turns: usize, call: Side) -> Result<(Outcome, f64), String> {
        let mut first = Memory::new(0);
        call(&mut first);
        let mut times = Vec::new();
        for _ in 0..turns {
            let mut left = Memory::new(0);
            times.push(timed(1, &mut left, call));
            if left != first {
                return Err("two turns of a call differ".to_string());
            }
        }
        Ok((self.judge(&first)?, median(times)))
    }
}

impl Outcome {
    // Whether a plan is said to be at the smallest interval.
    fn smallest(&self) -> bool {
        self.interval.is_some() && self.answer[5] == 1
    }
}

fn median(mut times: Vec<f64>) -> f64 {
    times.sort_by(f64::total_cmp);
    let half = times.len() / 2;
    match times.len() % 2 {
        0 => (times[half - 1] + times[half]) / 2.0,
        _ => times[half],
    }
}

// The search and the plan of one file: where the search finds a schedule, that is the smallest interval, and the plan has it and
// says so; where the search finds that there is none, there is no plan.
fn agree(search: &Outcome, plan: &Outcome) -> Result<(), String> {
    let fine = match search.interval {
        Some(_) => plan.interval == search.interval && plan.smallest(),
        None => search.result == OUT_OF_BUDGET || plan.interval.is_none(),
    };
    if fine {
        return Ok(());
    }
    Err(format!(
        "the search has interval {:?}, the plan {:?}, smallest: {}",
        search.interval,
        plan.interval,
        plan.smallest()
    ))
}

// The plan and its parts: it has what the exact search finds, else what was found without a search.
fn agree_on_search(plan: &Outcome, alone: &Outcome, exact: &Option<Outcome>) -> Result<(), String> {
    let found = exact.as_ref().and_then(|exact| exact.interval);
    if plan.interval == found.or(alone.interval) {
        return Ok(());
    }
    Err("the plan is neither what was searched nor what was found without".to_string())
}

// The plans of one loop in two numberings: an interval that is said to be smallest in one is not above that of the other.
fn agree_on_smallest(one: &Row, other: &Row) -> Result<(), String> {
    for (row, beside) in [(one, other), (other, one)] {
        let (plan, next) = (&row.plan.0, &beside.plan.0);
        if plan.smallest() && next.interval.is_some_and(|i| Some(i) < plan.interval) {
            return Err("a smallest interval is above that in another numbering".to_string());
        }
    }
    Ok(())
}

// The exact search that a plan makes where nothing was found at the larger bound: below what was found, or up to the cap.
fn exact_search(code: &Loop, alone: &Outcome) -> Result<Option<Outcome>, String> {
    if alone.interval == Some(code.bound) {
        return Ok(None);
    }
    let asked = Asked {
        cap: alone.interval.map_or(CAP, |interval| interval - 1),
        ..ASKED
    };
    Ok(Some(code.once(&|m| code.search(asked, m))?))
}

fn row(turns: usize, path: &str) -> Result<Row, String> {
    let (name, file) = read(path)?;
    let code = Loop::new(file)?;
    // With a budget of one probe no search of several operations finds anything: what is found is found without.
    let alone = code.once(&|m| code.plan(Asked { budget: 1, ..ASKED }, m))?;
    let row = Row {
        exact: exact_search(&code, &alone)?,
        alone,
        search: code.measured(turns, &|m| code.search(ASKED, m))?,
        plan: code.measured(turns, &|m| code.plan(ASKED, m))?,
        name,
        operations: code.operations,
        bound: code.bound,
    };
    agree(&row.search.0, &row.plan.0)?;
    agree_on_search(&row.plan.0, &row.alone, &row.exact)?;
    Ok(row)
}

// An interval, or null.
fn shown(interval: Option<usize>) -> String {
    interval.map_or("null".to_string(), |interval| interval.to_string())
}

// How a search ended: the number of its refusal, 0 where it found a schedule, and its probes.
fn ended(search: &Outcome) -> [u64; 2] {
    [search.result as u64, search.answer[5]]
}

fn print(numbering: &str, row: &Row) {
    let exact = row
        .exact
        .as_ref()
        .map_or("null".to_string(), |search| format!("{:?}", ended(search)));
    print!("{{\"loop\": {:?}, \"numbering\": {numbering:?}, ", row.name);
    print!(
        "\"operations\": {}, \"bound\": {}, ",
        row.operations, row.bound
    );
    let (search, time) = &row.search;
    print!(
        "\"search\": {{\"interval\": {}, \"ended\": {:?}, \"time\": {time}}}, ",
        shown(search.interval),
        ended(search)
    );
    let (plan, time) = &row.plan;
    println!(
        "\"plan\": {{\"interval\": {}, \"smallest\": {}, \"alone\": {}, \"exact\": {exact}, \"time\": {time}}}}}",
        shown(plan.interval),
        plan.smallest(),
        shown(row.alone.interval)
    );
}

fn pair(turns: usize, own: &str, shuffled: &str) -> Result<(), String> {
    let one = row(turns, own).map_err(|why| format!("{own}: {why}"))?;
    let other = row(turns, shuffled).map_err(|why| format!("{shuffled}: {why}"))?;
    agree_on_smallest(&one, &other).map_err(|why| format!("{own} and {shuffled}: {why}"))?;
    print("own", &one);
    print("shuffled", &other);
    Ok(())
}

fn rows(words: &[String]) -> Result<(), String> {
    let usage = || Err("usage: planner TURNS OWN SHUFFLED ..".to_string());
    let [turns, files @ ..] = words else {
        return usage();
    };
    let turns = number(turns)?;
    if turns == 0 || files.len() % 2 != 0 {
        return usage();
    }
    files
        .chunks(2)
        .try_for_each(|two| pair(turns, &two[0], &two[1]))
}

fn main() {
    let words: Vec<String> = env::args().skip(1).collect();
    if let Err(why) = rows(&words) {
        eprintln!("planner: {why}");
        process::exit(1);
    }
}
