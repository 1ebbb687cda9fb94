//! Facts at the worlds of a sequent, and two ways to have them closed under the nine rules, and the tenth with the unit law.

pub mod afresh;
pub mod kept;

pub use afresh::Afresh;
pub use kept::Kept;

use crate::tables::Logic;

/// Which way the closed facts are had.
#[derive(Clone, Copy, Debug, PartialEq, Eq)]
pub enum Way {
    /// Closed from nothing before each step that asks.
    Afresh,
    /// Kept closed while the branch grows.
    Kept,
}

/// The facts of a sequent. Worlds are made and noted on as a branch grows, and gone once it is restored.
pub trait Facts: Clone {
    /// What it takes to come back to a sequent that a waiting obligation has.
    type Mark: Clone;

    /// The root alone, nothing noted.
    fn root(logic: Logic, principals: usize) -> Self;
    fn worlds(&self) -> usize;
    /// A new world v with u ≤ v.
    fn add_above(&mut self, u: usize) -> usize;
    /// A new world v with u S_A v.
    fn add_said(&mut self, u: usize, a: usize) -> usize;
    /// u: A sf B, u being the newest world.
    fn note(&mut self, u: usize, a: usize, b: usize);
    fn mark(&self) -> Self::Mark;
    fn restore(&mut self, mark: &Self::Mark);

    /// u ≤ v among the closed facts.
    fn is_below(&self, u: usize, v: usize) -> bool;
    /// u S_A v among the closed facts.
    fn is_said(&self, u: usize, a: usize, v: usize) -> bool;
    /// u: A sf B among the closed facts.
    fn is_sf(&self, u: usize, a: usize, b: usize) -> bool;
}
