//! Safe calls of the proved gate: reader, writer, judge, and the gate from a file's bytes to its answer.
//!
//! Tables are lent as 16-bit numbers: 3 a formula (kind and two operands), 1 a policy line, 2 a step (kind and number). A
//! call takes any bytes and any numbers, needs no check before it, and always ends with one answer.
//!
//! The library is for x86-64 Linux. A call allocates nothing and needs [`STACK`] bytes of stack below it, which the main thread and
//! those of `std::thread` have by default; on a smaller stack it ends the program with a fault.
//!
//! ```
//! let printed = peraduksi::gate(b"version=1\nprinciples=2\n");
//! assert_eq!((printed.answer, printed.place, printed.steps, printed.column), (2, 2, 0, 8));
//! ```

mod calls;
mod counts;
mod reasons;

pub use calls::Printed;
pub use counts::{Counts, Logic, Version};
pub use reasons::{Reason, Refusal};

use reasons::answered;

/// The least length of each lent table.
pub const FORMS_ROOM: usize = 3 * 1_024;
pub const POLICY_ROOM: usize = 128;
pub const STEPS_ROOM: usize = 2 * 2_048;

/// The longest file that is read; room enough for every text that is written.
pub const MOST_BYTES: usize = 65_536;

/// Stack that is enough below any call, in bytes; the gate takes the most, some 94,500.
pub const STACK: usize = 96 * 1_024;

/// Reads a request file. Entries past the last one read are 0; after a refusal every table is all 0.
pub fn read(text: &[u8], forms: &mut [u16], policy: &mut [u16], steps: &mut [u16]) -> Result<Counts, Refusal> {
    let got = calls::read(text, forms, policy, steps);
    answered(got.refusal, got.place, got.column, got.counts)
}

/// Writes the request in the tables as text, and answers its length. Bytes past it are 0; after a refusal the whole output
/// is 0.
///
/// Tables have what the reader's have: a known kind, and 0 for an operand or a number that its kind lacks, or it is refusal 3 at
/// the line that the text would have; and 0 in every entry past the counts, or it is refusal 3 at place 0. [`Logic::Unit`] goes with
/// [`Version::TWO`], or it is refusal 16.
pub fn write(counts: Counts, forms: &[u16], policy: &[u16], steps: &[u16], out: &mut [u8]) -> Result<usize, Refusal> {
    let written = calls::write(counts, forms, policy, steps, out);
    answered(written.refusal, written.place, 0, written.length)
}

/// Judges the request in the tables, of which it asks what [`write`] asks. `Ok` grants.
pub fn judge(counts: Counts, forms: &[u16], policy: &[u16], steps: &[u16]) -> Result<(), Refusal> {
    let answer = calls::judge(counts, forms, policy, steps);
    answered(answer.refusal, answer.place, answer.column, ())
}

/// Reads and judges a request file: the four numbers that the gate program prints.
pub fn gate(file: &[u8]) -> Printed {
    calls::gate(file)
}
