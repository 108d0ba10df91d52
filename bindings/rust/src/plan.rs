//! The plan: a legal list of starts, found without a search where that is quick.

use std::fmt;

use crate::places::list_operations;
use crate::search::search_error;
use crate::sys;
use crate::{read, Bounds, Refusal, Request, SearchError, OPERATIONS_MOST, SEARCH_ROWS};

/// A plan: an interval, a legal list of starts for it, and whether no smaller interval has one.
///
/// It displays as a [`Schedule`](crate::Schedule) does, with `smallest` or `legal` in place of the probes.
#[derive(Clone, Debug, PartialEq, Eq, Hash)]
pub struct Plan {
    /// The interval: a new iteration begins every so many cycles.
    pub interval: usize,
    /// The two lower bounds of the interval.
    pub bounds: Bounds,
    /// The number of stages, as that of a [`Schedule`](crate::Schedule).
    pub stages: usize,
    /// Whether no smaller interval has a legal list of starts below the horizon; `false` where that is not known.
    pub smallest: bool,
    /// The start of each operation, in number order.
    pub starts: Vec<u16>,
}

impl fmt::Display for Plan {
    fn fmt(&self, f: &mut fmt::Formatter<'_>) -> fmt::Result {
        write!(
            f,
            "interval {} resource {} recurrence {} stages {} {}",
            self.interval,
            self.bounds.resource,
            self.bounds.recurrence,
            self.stages,
            if self.smallest { "smallest" } else { "legal" }
        )?;
        list_operations(f, self.interval, &self.starts)
    }
}

/// Plans a loop: a legal list of starts below the horizon, at an interval up to the cap.
///
/// First a list is looked for without a search, by iterative modulo scheduling. Where that is not at the larger of the
/// two bounds, the search of [`search`](crate::search) goes through the intervals below it, or up to the cap where there
/// is no such list; the budget is for that search. So a plan is never worse than a schedule: where [`search`](crate::search)
/// finds one, the plan has its interval and is `smallest`, though the starts may be other ones. Where it runs out of
/// probes, there may still be a plan.
///
/// ```
/// use mwelitunga::{plan, search, verify, Request, Verdict};
///
/// let file = std::fs::read("../../examples/a.loop")?;
/// let few = Request { budget: 1, ..Request::default() };
/// assert_eq!(search(&file, few).unwrap_err().refusal.number, 11);
/// let plan = plan(&file, few)?;
/// assert_eq!((plan.interval, plan.smallest), (3, true));
/// assert_eq!(verify(&file, plan.interval, &plan.starts)?, Verdict::Legal);
/// # Ok::<(), Box<dyn std::error::Error>>(())
/// ```
///
/// # Errors
///
/// As those of [`search`](crate::search); every refusal is one that it gives too, with the same probes.
pub fn plan(file: &[u8], request: Request) -> Result<Plan, SearchError> {
    let mut starts = [0; OPERATIONS_MOST];
    let mut rows = vec![0; SEARCH_ROWS];
    let mut answer = [0; 8];
    // SAFETY: the slices are valid for their own lengths, and nothing else points to what is written.
    let result = unsafe {
        sys::mw_plan(
            file.as_ptr(),
            file.len(),
            request.cap,
            request.horizon,
            request.budget,
            starts.as_mut_ptr(),
            starts.len(),
            rows.as_mut_ptr(),
            rows.len(),
            &mut answer,
        )
    };
    Refusal::check(result, &answer).map_err(|refusal| search_error(refusal, answer[5] as usize))?;
    let counts = read(file).expect("a file that was planned is a loop file");
    Ok(Plan {
        interval: answer[1] as usize,
        bounds: Bounds {
            resource: answer[2] as usize,
            recurrence: answer[3] as usize,
        },
        stages: answer[4] as usize,
        smallest: answer[5] == 1,
        starts: starts[..counts.operations].to_vec(),
    })
}
