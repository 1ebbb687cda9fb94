//! A plain implementation of document 01, with requests b), f), g), d) and l) of document 02: reader, writer, judge and gate, and a generator of requests to compare
//! another implementation with.

pub mod answers;
pub mod check;
pub mod classes;
pub mod facts;
pub mod gate;
pub mod generate;
pub mod judge;
pub mod limits;
pub mod read;
pub mod repeats;
pub mod shapes;
pub mod tables;
pub mod walk;
pub mod write;

pub use answers::{refusal, Answer, GateAnswer, ReadAnswer, WriteAnswer};
pub use facts::Way;
pub use gate::{gate, gate_by};
pub use judge::{judge, judge_by};
pub use read::read;
pub use tables::{Counts, Logic, Tables};
pub use write::write;
