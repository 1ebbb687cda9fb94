//! The nine rules as they stand, and the tenth of the unit law, run over bit rows until nothing is new.

use super::Facts;
use crate::limits::{PRINCIPALS, WORLDS};
use crate::tables::Logic;

/// A fact that a step or a policy line gave.
#[derive(Clone, Copy, Debug, PartialEq, Eq)]
pub enum Given {
    Below(usize, usize),
    Said(usize, usize, usize),
    Sf(usize, usize, usize),
}

/// The given facts of a sequent, oldest first; nothing closed is stored.
#[derive(Clone, Debug)]
pub struct Afresh {
    logic: Logic,
    principals: usize,
    worlds: usize,
    given: Vec<Given>,
}

impl Facts for Afresh {
    type Mark = (usize, usize);

    fn root(logic: Logic, principals: usize) -> Afresh {
        Afresh { logic, principals, worlds: 1, given: Vec::new() }
    }

    fn worlds(&self) -> usize {
        self.worlds
    }

    fn add_above(&mut self, u: usize) -> usize {
        self.given.push(Given::Below(u, self.worlds));
        self.worlds += 1;
        self.worlds - 1
    }

    fn add_said(&mut self, u: usize, a: usize) -> usize {
        self.given.push(Given::Said(u, a, self.worlds));
        self.worlds += 1;
        self.worlds - 1
    }

    fn note(&mut self, u: usize, a: usize, b: usize) {
        self.given.push(Given::Sf(u, a, b));
    }

    fn mark(&self) -> (usize, usize) {
        (self.worlds, self.given.len())
    }

    fn restore(&mut self, mark: &(usize, usize)) {
        self.worlds = mark.0;
        self.given.truncate(mark.1);
    }

    fn is_below(&self, u: usize, v: usize) -> bool {
        self.close().below[u] >> v & 1 == 1
    }

    fn is_said(&self, u: usize, a: usize, v: usize) -> bool {
        self.close().said[u][a] >> v & 1 == 1
    }

    fn is_sf(&self, u: usize, a: usize, b: usize) -> bool {
        self.close().sf[u][a] >> b & 1 == 1
    }
}

impl Afresh {
    /// The least set with the given facts that the rules add nothing to.
    pub fn close(&self) -> Closed {
        let mut closed = Closed::of(self);
        loop {
            let before = closed.clone();
            closed.apply_rules();
            if closed == before {
                return closed;
            }
        }
    }
}

/// Facts as bit rows: `below[u]` has bit v for u ≤ v, `said[u][a]` bit v for u S_A v, `sf[u][a]` bit b for u: A sf B.
#[derive(Clone, Debug, PartialEq, Eq)]
pub struct Closed {
    logic: Logic,
    worlds: usize,
    principals: usize,
    pub below: [u64; WORLDS],
    pub said: [[u64; PRINCIPALS]; WORLDS],
    pub sf: [[u16; PRINCIPALS]; WORLDS],
}

impl Closed {
    fn of(facts: &Afresh) -> Closed {
        let mut closed = Closed {
            logic: facts.logic,
            worlds: facts.worlds,
            principals: facts.principals,
            below: [0; WORLDS],
            said: [[0; PRINCIPALS]; WORLDS],
            sf: [[0; PRINCIPALS]; WORLDS],
        };
        for given in &facts.given {
            match *given {
                Given::Below(u, v) => closed.below[u] |= 1 << v,
                Given::Said(u, a, v) => closed.said[u][a] |= 1 << v,
                Given::Sf(u, a, b) => closed.sf[u][a] |= 1 << b,
            }
        }
        closed
    }

    /// Each rule once. Facts about sf run from older worlds to newer, the others back, so the loops go that way
    /// round; the result does not hang on it, the number of rounds does.
    fn apply_rules(&mut self) {
        for u in 0..self.worlds {
            self.below[u] |= 1 << u; // 7
            for a in 0..self.principals {
                self.sf[u][a] |= 1 << a; // 1
            }
            self.chain_sf(u); // 3
            let onward = self.said_by_any(u) | self.below[u];
            for v in bits(onward) {
                self.pass_sf(u, v); // 4, 5
            }
        }
        for u in (0..self.worlds).rev() {
            self.widen_said(u); // 2
            if self.logic == Logic::Unit {
                self.below[u] |= self.said_by_any(u); // 10
            }
            for v in bits(self.below[u]) {
                self.below[u] |= self.below[v]; // 8
                self.carry_said(u, v); // 6
            }
            for v in bits(self.said_by_any(u)) {
                self.take_said(u, v); // 9
            }
        }
    }

    /// Every v with u S_C v for some C.
    fn said_by_any(&self, u: usize) -> u64 {
        self.said[u].iter().fold(0, |any, row| any | row)
    }

    fn chain_sf(&mut self, u: usize) {
        for b in 0..self.principals {
            for a in 0..self.principals {
                if self.sf[u][a] >> b & 1 == 1 {
                    self.sf[u][a] |= self.sf[u][b];
                }
            }
        }
    }

    fn pass_sf(&mut self, u: usize, v: usize) {
        for a in 0..self.principals {
            self.sf[v][a] |= self.sf[u][a];
        }
    }

    fn widen_said(&mut self, u: usize) {
        for a in 0..self.principals {
            for b in bits(self.sf[u][a].into()) {
                self.said[u][a] |= self.said[u][b];
            }
        }
    }

    /// u S_A z wherever v S_A w and w ≤ z.
    fn carry_said(&mut self, u: usize, v: usize) {
        for a in 0..self.principals {
            for w in bits(self.said[v][a]) {
                self.said[u][a] |= self.below[w];
            }
        }
    }

    fn take_said(&mut self, u: usize, v: usize) {
        for a in 0..self.principals {
            self.said[u][a] |= self.said[v][a];
        }
    }
}

/// The numbers whose bits are set, smallest first.
fn bits(mut row: u64) -> impl Iterator<Item = usize> {
    std::iter::from_fn(move || {
        let bit = (row != 0).then(|| row.trailing_zeros() as usize)?;
        row &= row - 1;
        Some(bit)
    })
}
