//! The calls of a list, made one after the other on a session opened for them.

use super::session::{FreeRows, Session, Starts};
use super::{check, refused, Refusal};

/// What a replay came to, beside the replies, starts, rows and free rows.
#[derive(Clone, Copy, Debug, PartialEq)]
pub struct Replayed {
    pub calls: usize,
    /// How many checkpoints are open at the end.
    pub checkpoints: usize,
}

/// Makes the calls of a list, three numbers a call, and writes two numbers a call to the replies, and at the end all starts
/// and the free rows of all slots; or refuses the list as a whole, and writes nothing.
pub fn replay(
    file: &[u8],
    [interval, horizon]: [usize; 2],
    calls: &[u64],
    rows: &mut [u64],
    replies: &mut [u64],
    starts: &mut Starts,
    free_rows: &mut FreeRows,
) -> Result<Replayed, Refusal> {
    let number = check_calls(calls)?;
    check(replies.len() >= 2 * number, 254, replies.len())?;
    let mut session = Session::open(file, interval, horizon, rows)?;
    for (call, reply) in calls.chunks_exact(3).zip(replies.chunks_exact_mut(2)) {
        let numbers = match make(&mut session, call) {
            Ok(value) => [0, value],
            Err(refusal) => [refusal.number as u64, refusal.detail as u64],
        };
        reply.copy_from_slice(&numbers);
    }
    *starts = *session.starts();
    *free_rows = *session.free_rows();
    Ok(Replayed {
        calls: number,
        checkpoints: session.checkpoints(),
    })
}

/// How many calls a list has; refusal 255.
fn check_calls(calls: &[u64]) -> Result<usize, Refusal> {
    let whole = calls.chunks_exact(3);
    let number = whole.len();
    if let Some(strange) = whole.clone().position(|call| !(1..=6).contains(&call[0])) {
        return refused(255, strange);
    }
    check(whole.remainder().is_empty(), 255, number)?;
    Ok(number)
}

/// Makes one call; the value that it answers.
fn make(session: &mut Session, call: &[u64]) -> Result<u64, Refusal> {
    let (a, b) = (call[1] as usize, call[2] as usize);
    match call[0] {
        1 => session.place(a, b).map(|()| 0),
        2 => session.force(a, b),
        3 => session.remove(a).map(|()| 0),
        4 => session.checkpoint().map(|number| number as u64),
        5 => session.release().map(|()| 0),
        6 => session.rollback(a).map(|()| 0),
        kind => unreachable!("no call is of kind {kind}"),
    }
}
