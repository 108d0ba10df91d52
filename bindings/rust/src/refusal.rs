//! Refusals: why a call has no answer.

use std::error::Error;
use std::fmt;

use crate::sys::Answer;
use crate::Place;

/// Why a call was refused: a number, and a detail whose meaning depends on the number.
///
/// The checks are made in a fixed order, and the first that fails gives the refusal. [`Kind`] has a name for each
/// number and says what its detail is. Of 3 to 6 the message is about a file that was read; where one is written the
/// detail is another, and [`ListError`](crate::ListError) and [`WriteError`](crate::WriteError) have messages of their own.
///
/// ```
/// use mwelitunga::{read, Kind, Refusal};
///
/// let refusal = read(&[]).unwrap_err();
/// assert_eq!(refusal, Refusal { number: 1, detail: 0 });
/// assert_eq!(refusal.kind(), Some(Kind::FileLength));
/// assert_eq!(refusal.to_string(), "the file has 0 bytes, not 26 to 1690 (refused 1 at 0)");
/// ```
#[derive(Clone, Copy, Debug, PartialEq, Eq, Hash)]
pub struct Refusal {
    /// The number: 1 to 20, 254 or 255.
    pub number: usize,
    /// The detail.
    pub detail: u64,
}

/// A name for each number of a [`Refusal`], as in the C header. The value of a case is its number.
#[derive(Clone, Copy, Debug, PartialEq, Eq, Hash)]
#[non_exhaustive]
pub enum Kind {
    /// The file has fewer than 26 or more than 1,690 bytes. Detail: the length, 1,691 where it is longer than that.
    FileLength = 1,
    /// The version is not 1 (detail 0), or the number of sections is not 3 (detail 1).
    Head = 2,
    /// An entry has a wrong tag, offset or length. Detail: the offset of the entry. Of [`write`](crate::write): there are not
    /// 1 to 64 whole operations (detail 2), or not 0 to 256 whole dependences (18).
    Section = 3,
    /// A latency or a number of uses is out of range. Detail: the offset of the byte; of [`write`](crate::write), the
    /// operation's number.
    Operation = 4,
    /// There are not as many uses as the operations say (detail: where the uses begin), or a slot or a duration is out
    /// of range, or a slot is not above the one before it (detail: the offset of the byte). The details of
    /// [`write`](crate::write) are the number of whole uses, and the number of the use among all.
    Use = 5,
    /// An operation number, a delay or a distance is out of range. Detail: the offset of the byte; of
    /// [`write`](crate::write), the dependence's number.
    Dependence = 6,
    /// The cap or the interval (detail 1), the horizon (2) or the budget (3) is out of range.
    Request = 7,
    /// Dependences lead back to an operation within one iteration, with a delay above 0 in all, so that no interval is
    /// long enough. Detail: 0.
    Circle = 8,
    /// The recurrence bound is above 4,096. Detail: 0. The limits of a file leave no room for this one: what a circle of
    /// up to 64 operations with delays of up to 64 asks for is 4,096 at most.
    Recurrence = 9,
    /// No interval up to the cap has a legal list of starts below the horizon. Detail: the cap.
    NoSchedule = 10,
    /// The search takes more probes than the budget. Detail: the interval of the first probe that was not made.
    Budget = 11,
    /// There is no such operation. Detail: its number.
    NoOperation = 12,
    /// The operation is placed already. Detail: its number.
    Placed = 13,
    /// The operation is not placed. Detail: its number.
    NotPlaced = 14,
    /// A start is too late. Detail: the operation; of [`verify`](crate::verify), the first whose start is not below 4,096.
    Start = 15,
    /// The start breaks a dependence. Detail: the first such dependence.
    Broken = 16,
    /// The operation conflicts with itself or with a placed one. Detail: the number of the first [`Place`] in which it
    /// does; [`Refusal::place`] has cycle and slot.
    Conflict = 17,
    /// 16 checkpoints are open already. Detail: 0.
    Checkpoints = 18,
    /// There is no such checkpoint. Detail: 0.
    NoCheckpoint = 19,
    /// A list is shorter than the operations, there are too few rows, or a buffer is shorter than the file. Detail: the
    /// length that was passed.
    Room = 20,
    /// The list of replies has fewer than two numbers a call. Detail: its length. Only [`sys::mw_session`] gives it.
    ///
    /// [`sys::mw_session`]: crate::sys::mw_session
    Replies = 254,
    /// A call is of no known kind, or the list ends within a call. Detail: the number of the call. Only
    /// [`sys::mw_session`] gives it.
    ///
    /// [`sys::mw_session`]: crate::sys::mw_session
    Calls = 255,
}

/// Every case of [`Kind`], by rising number.
const KINDS: [Kind; 22] = [
    Kind::FileLength,
    Kind::Head,
    Kind::Section,
    Kind::Operation,
    Kind::Use,
    Kind::Dependence,
    Kind::Request,
    Kind::Circle,
    Kind::Recurrence,
    Kind::NoSchedule,
    Kind::Budget,
    Kind::NoOperation,
    Kind::Placed,
    Kind::NotPlaced,
    Kind::Start,
    Kind::Broken,
    Kind::Conflict,
    Kind::Checkpoints,
    Kind::NoCheckpoint,
    Kind::Room,
    Kind::Replies,
    Kind::Calls,
];

impl Kind {
    /// The number of the refusal.
    ///
    /// ```
    /// assert_eq!(mwelitunga::Kind::NoSchedule.number(), 10);
    /// ```
    pub fn number(self) -> usize {
        self as usize
    }

    /// The kind that has a number, where there is one.
    ///
    /// ```
    /// use mwelitunga::Kind;
    ///
    /// assert_eq!(Kind::of(20), Some(Kind::Room));
    /// assert_eq!(Kind::of(0), None);
    /// ```
    pub fn of(number: usize) -> Option<Kind> {
        KINDS.into_iter().find(|kind| kind.number() == number)
    }
}

impl Refusal {
    /// The name of the number. `None` for a number that this crate does not know.
    pub fn kind(&self) -> Option<Kind> {
        Kind::of(self.number)
    }

    /// Where the operation conflicts: the cycle, counted from its start, and the slot. `None` for another refusal than
    /// [`Kind::Conflict`].
    ///
    /// ```
    /// use mwelitunga::{Place, Refusal};
    ///
    /// let refusal = Refusal { number: 17, detail: 35 };
    /// assert_eq!(refusal.place(), Some(Place { cycle: 1, slot: 3 }));
    /// assert_eq!(Refusal { number: 12, detail: 35 }.place(), None);
    /// ```
    pub fn place(&self) -> Option<Place> {
        (self.kind() == Some(Kind::Conflict)).then(|| Place::of(self.detail))
    }

    /// What a call has answered: nothing to say where its result is 0, and else the refusal.
    pub(crate) fn check(result: usize, answer: &Answer) -> Result<(), Refusal> {
        match result {
            0 => Ok(()),
            number => Err(Refusal {
                number,
                detail: answer[0],
            }),
        }
    }

    /// The message without the numbers in brackets.
    fn describe(&self, kind: Kind, f: &mut fmt::Formatter<'_>) -> fmt::Result {
        let at = self.detail;
        match kind {
            Kind::FileLength if at > crate::FILE_MOST as u64 => {
                write!(f, "the file has more than {} bytes", crate::FILE_MOST)
            }
            Kind::FileLength => write!(f, "the file has {at} bytes, not 26 to {}", crate::FILE_MOST),
            Kind::Head if at == 0 => write!(f, "the file is not of version 1"),
            Kind::Head => write!(f, "the file does not have 3 sections"),
            Kind::Section => write!(
                f,
                "the section entry at byte {at} has a wrong tag, offset or length"
            ),
            Kind::Operation => write!(
                f,
                "the latency or number of uses at byte {at} is out of range"
            ),
            Kind::Use => write!(
                f,
                "the use at byte {at} is out of range or out of order, or the number of uses is wrong"
            ),
            Kind::Dependence => write!(f, "the dependence is out of range at byte {at}"),
            Kind::Request => write!(f, "{} out of range", request_field(at)),
            Kind::Circle => write!(
                f,
                "dependences within one iteration form a circle, so no interval is long enough"
            ),
            Kind::Recurrence => write!(f, "the recurrence bound is above 4096"),
            Kind::NoSchedule => write!(f, "there is no schedule at any interval up to {at}"),
            Kind::Budget => write!(f, "the budget of probes was used up at interval {at}"),
            Kind::NoOperation => write!(f, "there is no operation {at}"),
            Kind::Placed => write!(f, "operation {at} is placed already"),
            Kind::NotPlaced => write!(f, "operation {at} is not placed"),
            Kind::Start => write!(f, "the start of operation {at} is too late"),
            Kind::Broken => write!(f, "the start breaks dependence {at}"),
            Kind::Conflict => write!(
                f,
                "the operation conflicts with itself or with a placed one, in its {}",
                Place::of(at)
            ),
            Kind::Checkpoints => write!(f, "16 checkpoints are open already"),
            Kind::NoCheckpoint => write!(f, "there is no such checkpoint"),
            Kind::Room => write!(f, "the lent list or table is too short, with a length of {at}"),
            Kind::Replies => write!(f, "the list of replies is too short, with a length of {at}"),
            Kind::Calls => write!(f, "call {at} is of no known kind or is cut off"),
        }
    }
}

/// What the detail of [`Kind::Request`] means.
fn request_field(detail: u64) -> &'static str {
    match detail {
        1 => "the cap or the interval is",
        2 => "the horizon is",
        3 => "the budget is",
        _ => "a number of the request is",
    }
}

impl fmt::Display for Refusal {
    /// One line: the message, then number and detail in brackets.
    fn fmt(&self, f: &mut fmt::Formatter<'_>) -> fmt::Result {
        match self.kind() {
            Some(kind) => self.describe(kind, f)?,
            None => write!(f, "unknown refusal")?,
        }
        write!(f, " (refused {} at {})", self.number, self.detail)
    }
}

impl Error for Refusal {}
