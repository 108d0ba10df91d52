//! A loop as a plain value: its file, and the loop of a file.

use crate::{read, write, Counts, Refusal, WriteError, FILE_MOST};

/// A loop: its operations and the dependences between them.
///
/// Any numbers may stand in it. What a loop file cannot hold is refused where the file is to be written
/// ([`Loop::to_file`]). Operations and dependences are numbered from 0, by their places; so are the uses of an operation,
/// and those of all operations one after the other.
///
/// ```
/// use mwelitunga::{search, Dependence, Loop, Operation, Request, Use};
///
/// let operation = |latency, slot, duration| Operation {
///     latency,
///     uses: vec![Use { slot, duration }],
/// };
/// let loop_a = Loop {
///     operations: vec![operation(2, 1, 1), operation(3, 2, 2), operation(1, 1, 1)],
///     dependences: vec![
///         Dependence { from: 0, to: 1, delay: 2, distance: 0 },
///         Dependence { from: 1, to: 2, delay: 3, distance: 0 },
///         Dependence { from: 1, to: 1, delay: 3, distance: 1 },
///     ],
/// };
/// let file = loop_a.to_file()?;
/// assert_eq!(file, std::fs::read("../../examples/a.loop")?);
/// assert_eq!(Loop::from_file(&file)?, loop_a);
/// assert_eq!(search(&file, Request::default())?.interval, 3);
/// # Ok::<(), Box<dyn std::error::Error>>(())
/// ```
#[derive(Clone, Debug, Default, PartialEq, Eq, Hash)]
pub struct Loop {
    /// The operations, 1 to 64.
    pub operations: Vec<Operation>,
    /// The dependences, 0 to 256.
    pub dependences: Vec<Dependence>,
}

/// An operation of a [`Loop`].
#[derive(Clone, Debug, Default, PartialEq, Eq, Hash)]
pub struct Operation {
    /// How many cycles it occupies, 0 to 64; 0 counts as 1.
    pub latency: i32,
    /// The slots that it uses, 0 to 4 of them, by rising slot.
    pub uses: Vec<Use>,
}

/// A slot that an [`Operation`] holds from the cycle in which it starts.
#[derive(Clone, Copy, Debug, PartialEq, Eq, Hash)]
pub struct Use {
    /// The slot, 1 to 24.
    pub slot: i32,
    /// For how many cycles, 1 to 16.
    pub duration: i32,
}

/// A dependence of a [`Loop`]: `to`, of `distance` iterations later, begins `delay` cycles after `from` or later.
#[derive(Clone, Copy, Debug, Default, PartialEq, Eq, Hash)]
pub struct Dependence {
    /// The operation that is waited for.
    pub from: usize,
    /// The operation that waits, which may be the same.
    pub to: usize,
    /// The cycles between the two starts, -64 to 64.
    pub delay: i32,
    /// The iterations between the two, 0 to 15.
    pub distance: i32,
}

impl Loop {
    /// The loop file of the loop. A loop has one file only.
    ///
    /// ```
    /// use mwelitunga::{Loop, Operation, Wrong};
    ///
    /// let mut described = Loop::default();
    /// described.operations.push(Operation { latency: 2, uses: vec![] });
    /// assert_eq!(described.to_file()?.len(), 28);
    ///
    /// described.operations.push(Operation { latency: 65, uses: vec![] });
    /// let error = described.to_file().unwrap_err();
    /// assert_eq!(error.wrong, Wrong::Operation { op: 1, latency: 65, uses: 0 });
    /// assert_eq!(error.to_string(), "operation 1: the latency is 65, not 0 to 64 (refused 4 at 1)");
    /// # Ok::<(), mwelitunga::WriteError>(())
    /// ```
    ///
    /// # Errors
    ///
    /// In this order, refusal 3: the loop does not have 1 to 64 operations, or has more than 256 dependences. 4: a latency
    /// or a number of uses is out of range. 5: a slot or a duration is, or a slot is not above that of the use before. 6:
    /// an operation number, a delay or a distance is. The error names the first such record.
    pub fn to_file(&self) -> Result<Vec<u8>, WriteError> {
        let [ops, uses, deps] = self.lists();
        let mut buffer = [0; FILE_MOST];
        match write(&ops, &uses, &deps, &mut buffer) {
            Ok(length) => Ok(buffer[..length].to_vec()),
            Err(error) => Err(WriteError::of(self, error.refusal)),
        }
    }

    /// The loop of a loop file. What was taken from its bytes is written again by the proved writer, and has to give the
    /// same bytes.
    ///
    /// ```
    /// use mwelitunga::{Dependence, Loop};
    ///
    /// let file = std::fs::read("../../examples/a.loop")?;
    /// let loop_a = Loop::from_file(&file)?;
    /// assert_eq!(loop_a.operations[1].latency, 3);
    /// assert_eq!(loop_a.dependences[2], Dependence { from: 1, to: 1, delay: 3, distance: 1 });
    /// assert_eq!(loop_a.to_file()?, file);
    /// # Ok::<(), Box<dyn std::error::Error>>(())
    /// ```
    ///
    /// # Errors
    ///
    /// Refusals 1 to 6: the file is no loop file. They are those of [`read`].
    pub fn from_file(file: &[u8]) -> Result<Loop, Refusal> {
        let counts = read(file)?;
        let described = taken_apart(file, counts);
        // The bytes are taken apart here, in code that is not proved. The writer is: what it writes is read as the loop of the
        // lists that it was given, and a loop has one file only. So the same bytes come out exactly where those lists are the
        // ones of the file's loop. That the value says the same as its lists, the tests hold to another reader.
        assert!(
            described.to_file().as_deref() == Ok(file),
            "the loop of a file has another file: {described:?} of {file:?}"
        );
        Ok(described)
    }

    /// The operation and its use that are use `number` of all.
    pub(crate) fn use_of_all(&self, number: usize) -> Option<(usize, usize)> {
        let operations = self.operations.iter().enumerate();
        let mut uses = operations.flat_map(|(op, operation)| {
            let places = 0..operation.uses.len();
            places.map(move |place| (op, place))
        });
        uses.nth(number)
    }

    /// The numbers of the loop, as the writer takes them: operations, uses and dependences.
    fn lists(&self) -> [Vec<i32>; 3] {
        let operations = self.operations.iter();
        let uses = self.operations.iter().flat_map(|op| &op.uses);
        let dependences = self.dependences.iter();
        [
            operations
                .flat_map(|op| [op.latency, number(op.uses.len())])
                .collect(),
            uses.flat_map(|u| [u.slot, u.duration]).collect(),
            dependences
                .flat_map(|d| [number(d.from), number(d.to), d.delay, d.distance])
                .collect(),
        ]
    }
}

/// A number as the writer takes it. One that is too large for that is passed as the largest, which the writer refuses as well.
fn number(given: usize) -> i32 {
    i32::try_from(given).unwrap_or(i32::MAX)
}

/// The bytes before the records of a loop file.
const HEAD: usize = 26;

/// The loop of a file that was accepted, with so many records.
fn taken_apart(file: &[u8], counts: Counts) -> Loop {
    let (operations, rest) = file[HEAD..].split_at(2 * counts.operations);
    let (uses, dependences) = rest.split_at(2 * counts.uses);
    let mut uses = uses.chunks_exact(2).map(|bytes| Use {
        slot: bytes[0].into(),
        duration: bytes[1].into(),
    });
    Loop {
        operations: operations
            .chunks_exact(2)
            .map(|bytes| Operation {
                latency: bytes[0].into(),
                uses: uses.by_ref().take(bytes[1].into()).collect(),
            })
            .collect(),
        dependences: dependences
            .chunks_exact(4)
            .map(|bytes| Dependence {
                from: bytes[0].into(),
                to: bytes[1].into(),
                delay: i32::from(bytes[2] as i8),
                distance: bytes[3].into(),
            })
            .collect(),
    }
}
