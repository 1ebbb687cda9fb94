//! No formula twice: each `form=` line is held against all before it.

use crate::answers::refusal::REPEATED;
use std::collections::HashSet;

/// The formulas so far, each as a table has it: kind and operands, 0 where the kind lacks one.
#[derive(Clone, Debug, Default)]
pub struct Repeats {
    there: HashSet<[u16; 3]>,
}

impl Repeats {
    /// None so far, with room for so many.
    pub fn with_room(formulas: usize) -> Repeats {
        Repeats { there: HashSet::with_capacity(formulas) }
    }

    /// Refusal 15 of a formula that passed 3 and 4, so that its numbers fit an entry.
    pub fn check(&mut self, entry: [u16; 3]) -> Result<(), u8> {
        if self.there.insert(entry) {
            Ok(())
        } else {
            Err(REPEATED)
        }
    }
}
