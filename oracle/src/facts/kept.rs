//! Facts kept closed. A new world is a leaf and a note is at the newest world, so no older fact ever changes:
//! what holds into a world is settled when it is made, and coming back is a matter of the count of worlds.

use super::Facts;
use crate::limits::{PRINCIPALS, WORLDS};
use crate::tables::Logic;

/// Closed facts by the world they lead into; entries at and past `worlds` are left over and mean nothing.
#[derive(Clone, Debug)]
pub struct Kept {
    logic: Logic,
    worlds: usize,
    /// Bit u for u an ancestor of the world, or itself.
    path: [u64; WORLDS],
    /// Bit u for u ≤ the world.
    below: [u64; WORLDS],
    /// Bit u for u S_A the world.
    said: [[u64; PRINCIPALS]; WORLDS],
    /// Bit b for A sf B at the world.
    sf: [[u16; PRINCIPALS]; WORLDS],
}

/// The count of worlds, and the sf rows of the newest, on which the first branch of a `case` may note.
#[derive(Clone, Copy, Debug)]
pub struct Mark {
    worlds: usize,
    newest: [u16; PRINCIPALS],
}

impl Facts for Kept {
    type Mark = Mark;

    fn root(logic: Logic, principals: usize) -> Kept {
        let mut sf = [[0; PRINCIPALS]; WORLDS];
        for (a, row) in sf[0].iter_mut().enumerate().take(principals) {
            *row = 1 << a;
        }
        let mut only_root = [0; WORLDS];
        only_root[0] = 1;
        Kept { logic, worlds: 1, path: only_root, below: only_root, said: [[0; PRINCIPALS]; WORLDS], sf }
    }

    fn worlds(&self) -> usize {
        self.worlds
    }

    fn add_above(&mut self, u: usize) -> usize {
        let v = self.add_leaf(u);
        self.below[v] = self.below[u] | 1 << v;
        self.said[v] = self.said[u]; // by rule 6, with u ≤ v
        v
    }

    fn add_said(&mut self, u: usize, a: usize) -> usize {
        let v = self.add_leaf(u);
        self.below[v] = 1 << v;
        for b in 0..PRINCIPALS {
            self.said[v][b] = if self.is_sf(u, b, a) { self.path[u] } else { 0 };
        }
        if self.logic == Logic::Unit {
            // By rule 10 u ≤ v, and then as with a world above.
            self.below[v] |= self.below[u];
            for b in 0..PRINCIPALS {
                self.said[v][b] |= self.said[u][b];
            }
        }
        v
    }

    fn note(&mut self, u: usize, a: usize, b: usize) {
        debug_assert_eq!(u + 1, self.worlds, "a note is at the newest world");
        let taken_in = self.sf[u][b];
        for row in &mut self.sf[u] {
            if *row >> a & 1 == 1 {
                *row |= taken_in;
            }
        }
    }

    fn mark(&self) -> Mark {
        Mark { worlds: self.worlds, newest: self.sf[self.worlds - 1] }
    }

    fn restore(&mut self, mark: &Mark) {
        self.worlds = mark.worlds;
        self.sf[mark.worlds - 1] = mark.newest;
    }

    fn is_below(&self, u: usize, v: usize) -> bool {
        self.below[v] >> u & 1 == 1
    }

    fn is_said(&self, u: usize, a: usize, v: usize) -> bool {
        self.said[v][a] >> u & 1 == 1
    }

    fn is_sf(&self, u: usize, a: usize, b: usize) -> bool {
        self.sf[u][a] >> b & 1 == 1
    }
}

impl Kept {
    fn add_leaf(&mut self, u: usize) -> usize {
        let v = self.worlds;
        self.worlds += 1;
        self.path[v] = self.path[u] | 1 << v;
        self.sf[v] = self.sf[u];
        v
    }
}
