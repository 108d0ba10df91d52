//! What the plain implementation takes and answers, in the types of the crate.

use mwelitunga::{
    Bounds, Counts, Dependence, Found, Operation, Place, Refusal, Request, SearchError, Use,
    Verdict,
};
use plain::file::Loop;
use plain::{bounds, file, legality, search, verifier};

pub fn refusal(plain: plain::Refusal) -> Refusal {
    Refusal {
        number: plain.number,
        detail: plain.detail as u64,
    }
}

pub fn counts(code: &Loop) -> Counts {
    Counts {
        operations: code.operations.len(),
        uses: code.operations.iter().map(|op| op.uses.len()).sum(),
        dependences: code.dependences.len(),
    }
}

pub fn described(plain: &Loop) -> mwelitunga::Loop {
    let operations = plain.operations.iter();
    let dependences = plain.dependences.iter();
    mwelitunga::Loop {
        operations: operations
            .map(|op| Operation {
                latency: op.latency.into(),
                uses: op.uses.iter().map(used).collect(),
            })
            .collect(),
        dependences: dependences
            .map(|d| Dependence {
                from: d.from,
                to: d.to,
                delay: d.delay,
                distance: d.distance,
            })
            .collect(),
    }
}

fn used(plain: &file::Use) -> Use {
    Use {
        slot: plain.slot.into(),
        duration: plain.duration.into(),
    }
}

pub fn bounds(plain: bounds::Bounds) -> Bounds {
    Bounds {
        resource: plain.resource,
        recurrence: plain.recurrence,
    }
}

pub fn place(plain: legality::Place) -> Place {
    Place {
        cycle: plain.cycle,
        slot: plain.slot,
    }
}

pub fn verdict(plain: verifier::Verdict) -> Verdict {
    match plain {
        verifier::Verdict::Legal => Verdict::Legal,
        verifier::Verdict::Broken { dependence } => Verdict::Broken { dependence },
        verifier::Verdict::Conflict {
            first,
            second,
            place: at,
        } => Verdict::Conflict {
            first,
            second,
            place: place(at),
        },
    }
}

pub fn found(plain: search::Found) -> Found {
    Found {
        interval: plain.interval,
        bounds: bounds(plain.bounds),
        stages: plain.stages,
        probes: plain.probes,
    }
}

pub fn not_found(plain: search::NotFound) -> SearchError {
    SearchError {
        refusal: refusal(plain.refusal),
        probes: plain.probes,
    }
}

pub fn request(plain: search::Request) -> Request {
    Request {
        cap: plain.cap,
        horizon: plain.horizon,
        budget: plain.budget,
    }
}
