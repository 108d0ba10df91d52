//! Reading a loop file.

use crate::sys;
use crate::Refusal;

/// The largest loop file, in bytes.
pub const FILE_MOST: usize = 1690;

/// The most operations that a loop has.
pub const OPERATIONS_MOST: usize = 64;

/// How much there is in a loop file.
#[derive(Clone, Copy, Debug, PartialEq, Eq, Hash)]
pub struct Counts {
    /// The number of operations, 1 to 64.
    pub operations: usize,
    /// The number of uses, 0 to 256.
    pub uses: usize,
    /// The number of dependences, 0 to 256.
    pub dependences: usize,
}

/// Reads a loop file.
///
/// ```
/// use mwelitunga::{read, Counts};
///
/// let file = std::fs::read("../../examples/a.loop")?;
/// assert_eq!(read(&file)?, Counts { operations: 3, uses: 3, dependences: 3 });
/// # Ok::<(), Box<dyn std::error::Error>>(())
/// ```
///
/// # Errors
///
/// Refusals 1 to 6: the file is no loop file.
pub fn read(file: &[u8]) -> Result<Counts, Refusal> {
    let mut answer = [0; 8];
    // SAFETY: the slice is valid for its own length, and nothing else points to the answer.
    let result = unsafe { sys::mw_read(file.as_ptr(), file.len(), &mut answer) };
    Refusal::check(result, &answer)?;
    Ok(Counts {
        operations: answer[1] as usize,
        uses: answer[2] as usize,
        dependences: answer[3] as usize,
    })
}
