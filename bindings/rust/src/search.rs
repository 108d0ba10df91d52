//! The search for the smallest interval and its first list of starts.

use std::error::Error;
use std::fmt;

use crate::places::list_operations;
use crate::sys;
use crate::{read, Bounds, Kind, Refusal, OPERATIONS_MOST};

/// How many rows [`search_in`] and [`sys::mw_plan`] ask for.
pub const SEARCH_ROWS: usize = 4096;

/// What a search or a plan may do.
#[derive(Clone, Copy, Debug, PartialEq, Eq, Hash)]
pub struct Request {
    /// The largest interval that is tried, 1 to 4,096.
    pub cap: usize,
    /// All starts stay below it, 1 to 4,096.
    pub horizon: usize,
    /// How many probes may be made, 1 to 1,000,000. A probe is one start tried for one operation.
    pub budget: usize,
}

impl Default for Request {
    /// The request of the program `schedule`: cap 4,096, horizon 256, budget 1,000,000.
    fn default() -> Request {
        Request {
            cap: 4096,
            horizon: 256,
            budget: 1_000_000,
        }
    }
}

/// What a search with lent memory has found; the starts are in the lent list.
#[derive(Clone, Copy, Debug, PartialEq, Eq, Hash)]
pub struct Found {
    /// The smallest interval that has a legal list of starts.
    pub interval: usize,
    /// The two lower bounds.
    pub bounds: Bounds,
    /// The number of stages, as that of a [`Schedule`].
    pub stages: usize,
    /// How many probes were made.
    pub probes: usize,
}

/// A schedule: the smallest interval that has a legal list of starts, and of those lists the first in dictionary order.
///
/// It displays as the program `schedule` prints it, without the end of the last line.
#[derive(Clone, Debug, PartialEq, Eq, Hash)]
pub struct Schedule {
    /// The interval: a new iteration begins every so many cycles.
    pub interval: usize,
    /// The two lower bounds of the interval.
    pub bounds: Bounds,
    /// The number of stages: one more than the stage of the last cycle that an operation occupies. It occupies as many cycles
    /// from its start on as its latency says, at least one.
    pub stages: usize,
    /// How many probes were made.
    pub probes: usize,
    /// The start of each operation, in number order.
    pub starts: Vec<u16>,
}

impl fmt::Display for Schedule {
    fn fmt(&self, f: &mut fmt::Formatter<'_>) -> fmt::Result {
        write!(
            f,
            "interval {} resource {} recurrence {} stages {} probes {}",
            self.interval, self.bounds.resource, self.bounds.recurrence, self.stages, self.probes
        )?;
        list_operations(f, self.interval, &self.starts)
    }
}

/// Why a search or a plan has found nothing.
#[derive(Clone, Copy, Debug, PartialEq, Eq, Hash)]
pub struct SearchError {
    /// The refusal.
    pub refusal: Refusal,
    /// How many probes were made, where the search was made and ended in refusal 10 or 11 (for 11, as many as the budget
    /// has); `None` where it was not begun.
    pub probes: Option<usize>,
}

impl fmt::Display for SearchError {
    fn fmt(&self, f: &mut fmt::Formatter<'_>) -> fmt::Result {
        match self.probes {
            None => write!(f, "{}", self.refusal),
            Some(probes) => write!(f, "{} after {probes} probes", self.refusal),
        }
    }
}

impl Error for SearchError {}

impl From<SearchError> for Refusal {
    /// The refusal without the probes.
    fn from(error: SearchError) -> Refusal {
        error.refusal
    }
}

/// Searches for the smallest interval up to the cap that has a legal list of starts below the horizon, and there for the
/// first list in dictionary order.
///
/// ```
/// use mwelitunga::{search, Request};
///
/// let file = std::fs::read("../../examples/a.loop")?;
/// let schedule = search(&file, Request::default())?;
/// assert_eq!(schedule.interval, 3);
/// assert_eq!(schedule.starts, [0, 2, 5]);
/// assert_eq!(
///     schedule.to_string(),
///     "interval 3 resource 2 recurrence 3 stages 2 probes 10\n\
///      op 0 start 0 stage 0 cycle 0 order 0\n\
///      op 1 start 2 stage 0 cycle 2 order 1\n\
///      op 2 start 5 stage 1 cycle 2 order 0"
/// );
///
/// let error = search(&file, Request { budget: 9, ..Request::default() }).unwrap_err();
/// assert_eq!((error.refusal.number, error.refusal.detail, error.probes), (11, 3, Some(9)));
/// # Ok::<(), Box<dyn std::error::Error>>(())
/// ```
///
/// # Errors
///
/// In this order, refusals 1 to 6: the file is no loop file. 7: a number of the request is out of range. 8: no interval
/// is long enough for the dependences. 11: the search takes more probes than the budget. 10: there is no schedule.
pub fn search(file: &[u8], request: Request) -> Result<Schedule, SearchError> {
    let mut starts = [0; OPERATIONS_MOST];
    let mut rows = vec![0; SEARCH_ROWS];
    let found = search_in(file, request, &mut starts, &mut rows)?;
    let counts = read(file).expect("a file that was searched is a loop file");
    Ok(Schedule {
        interval: found.interval,
        bounds: found.bounds,
        stages: found.stages,
        probes: found.probes,
        starts: starts[..counts.operations].to_vec(),
    })
}

/// The search in lent memory: `starts` is room for one start an operation ([`OPERATIONS_MOST`] is enough for every
/// file), and `rows` is scratch of [`SEARCH_ROWS`] or more.
///
/// Where a schedule is found, the starts of the operations stand first in `starts`, and the rest of it is as it was; after
/// a refusal all of it is as it was. The first [`SEARCH_ROWS`] rows are 0 where a schedule is found or the refusal is 10
/// or 11; later rows, and all rows after another refusal, are as they were.
///
/// ```
/// use mwelitunga::{search_in, Request, SEARCH_ROWS};
///
/// let file = std::fs::read("../../examples/a.loop")?;
/// let mut starts = [7; 5];
/// let mut rows = [0; SEARCH_ROWS];
/// let found = search_in(&file, Request::default(), &mut starts, &mut rows)?;
/// assert_eq!((found.interval, found.stages, found.probes), (3, 2, 10));
/// assert_eq!(starts, [0, 2, 5, 7, 7]);
/// # Ok::<(), Box<dyn std::error::Error>>(())
/// ```
///
/// # Errors
///
/// As those of [`search`], and after 7 refusal 20: `starts` is shorter than the operations, or `rows` than
/// [`SEARCH_ROWS`].
pub fn search_in(
    file: &[u8],
    request: Request,
    starts: &mut [u16],
    rows: &mut [u64],
) -> Result<Found, SearchError> {
    let mut answer = [0; 8];
    // SAFETY: the slices are valid for their own lengths; those that are written are borrowed mutably, so they overlap
    // nothing, and nothing else points to the answer.
    let result = unsafe {
        sys::mw_search(
            file.as_ptr(),
            file.len(),
            request.cap,
            request.horizon,
            request.budget,
            starts.as_mut_ptr(),
            starts.len(),
            rows.as_mut_ptr(),
            rows.len(),
            &mut answer,
        )
    };
    let probes = answer[5] as usize;
    Refusal::check(result, &answer).map_err(|refusal| search_error(refusal, probes))?;
    Ok(Found {
        interval: answer[1] as usize,
        bounds: Bounds {
            resource: answer[2] as usize,
            recurrence: answer[3] as usize,
        },
        stages: answer[4] as usize,
        probes,
    })
}

/// The error of a refusal: only two refusals tell of probes.
pub(crate) fn search_error(refusal: Refusal, probes: usize) -> SearchError {
    let searched = matches!(refusal.kind(), Some(Kind::NoSchedule | Kind::Budget));
    SearchError {
        refusal,
        probes: searched.then_some(probes),
    }
}
