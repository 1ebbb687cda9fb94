//! The rules once more, one bool a fact and one loop a rule, with room for a wrong rule beside them.

use crate::facts::Facts;
use crate::tables::Logic;

/// A rule that the documents do not have, or one of the ten left out.
#[derive(Clone, Copy, Debug, PartialEq, Eq)]
pub enum Wrong {
    /// u S_A v with u: A sf B gives u S_B v.
    Rule2Backward,
    /// u: A sf B gives u: B sf A.
    SfBothWays,
    /// u S_A v gives u ≤ v.
    SaidIsBelow,
    /// u ≤ v gives u S_A v.
    BelowIsSaid,
    /// u ≤ v gives v ≤ u.
    BelowBothWays,
    /// u ≤ v with v: A sf B gives u: A sf B.
    Rule5Backward,
    /// Rule 6 stops at z = w: u ≤ v with v S_A w gives u S_A w.
    Rule6Narrow,
    /// u ≤ v with u S_A w gives v S_A w.
    Rule6Upward,
    /// u S_B v with v S_A w gives u S_B w.
    Rule9First,
    /// u S_A u.
    SaidOfItself,
    /// With the unit law u S_A v gives v ≤ u too.
    Rule10Backward,
    /// The rule of this number is left out.
    Without(usize),
}

/// The rules too many. Rule 4 backward is not among them: nothing is ever noted at a world that an S fact leads to,
/// so no request could tell; nor is u S_A w with z ≤ w for u S_A z, which follows wherever z ≤ w can be.
pub const WRONG: [Wrong; 10] = [
    Wrong::Rule2Backward,
    Wrong::SfBothWays,
    Wrong::SaidIsBelow,
    Wrong::BelowIsSaid,
    Wrong::BelowBothWays,
    Wrong::Rule5Backward,
    Wrong::Rule6Upward,
    Wrong::Rule9First,
    Wrong::SaidOfItself,
    Wrong::Rule10Backward,
];

/// Closed facts as bools, closed again after each new one.
#[derive(Clone, Debug)]
pub struct Naive {
    logic: Logic,
    wrong: Option<Wrong>,
    principals: usize,
    below: Vec<Vec<bool>>,
    said: Vec<Vec<Vec<bool>>>,
    sf: Vec<Vec<Vec<bool>>>,
    grew: bool,
}

impl Facts for Naive {
    type Mark = Naive;

    fn root(logic: Logic, principals: usize) -> Naive {
        Naive::by(logic, principals, None)
    }

    fn worlds(&self) -> usize {
        self.below.len()
    }

    fn add_above(&mut self, u: usize) -> usize {
        let v = self.add_world();
        self.set_below(u, v);
        self.close();
        v
    }

    fn add_said(&mut self, u: usize, a: usize) -> usize {
        let v = self.add_world();
        self.set_said(u, a, v);
        self.close();
        v
    }

    fn note(&mut self, u: usize, a: usize, b: usize) {
        self.set_sf(u, a, b);
        self.close();
    }

    fn mark(&self) -> Naive {
        self.clone()
    }

    fn restore(&mut self, mark: &Naive) {
        *self = mark.clone();
    }

    fn is_below(&self, u: usize, v: usize) -> bool {
        self.below[u][v]
    }

    fn is_said(&self, u: usize, a: usize, v: usize) -> bool {
        self.said[a][u][v]
    }

    fn is_sf(&self, u: usize, a: usize, b: usize) -> bool {
        self.sf[u][a][b]
    }
}

impl Naive {
    /// The root alone, by the logic's rules and perhaps a wrong one.
    pub fn by(logic: Logic, principals: usize, wrong: Option<Wrong>) -> Naive {
        let said = vec![Vec::new(); principals];
        let mut naive = Naive { logic, wrong, principals, below: Vec::new(), said, sf: Vec::new(), grew: false };
        naive.add_world();
        naive.close();
        naive
    }

    fn add_world(&mut self) -> usize {
        let worlds = self.below.len() + 1;
        for rows in self.said.iter_mut().chain([&mut self.below]) {
            rows.push(Vec::new());
            rows.iter_mut().for_each(|row| row.resize(worlds, false));
        }
        self.sf.push(vec![vec![false; self.principals]; self.principals]);
        worlds - 1
    }

    fn set_below(&mut self, u: usize, v: usize) {
        self.grew |= !self.below[u][v];
        self.below[u][v] = true;
    }

    fn set_said(&mut self, u: usize, a: usize, v: usize) {
        self.grew |= !self.said[a][u][v];
        self.said[a][u][v] = true;
    }

    fn set_sf(&mut self, u: usize, a: usize, b: usize) {
        self.grew |= !self.sf[u][a][b];
        self.sf[u][a][b] = true;
    }

    /// Whether a rule is on the sheet: the tenth is with the unit law only.
    fn has_rule(&self, rule: usize) -> bool {
        self.wrong != Some(Wrong::Without(rule)) && (rule < 10 || self.logic == Logic::Unit)
    }

    fn close(&mut self) {
        self.grew = true;
        while std::mem::take(&mut self.grew) {
            for u in 0..self.worlds() {
                self.start_at(u);
                self.chain_sf(u);
                for v in 0..self.worlds() {
                    if self.below[u][v] {
                        self.follow_below(u, v);
                    }
                    for c in 0..self.principals {
                        if self.said[c][u][v] {
                            self.follow_said(u, c, v);
                        }
                    }
                }
            }
        }
    }

    fn start_at(&mut self, u: usize) {
        if self.has_rule(7) {
            self.set_below(u, u);
        }
        for a in 0..self.principals {
            if self.has_rule(1) {
                self.set_sf(u, a, a);
            }
            if self.wrong == Some(Wrong::SaidOfItself) {
                self.set_said(u, a, u);
            }
        }
    }

    fn chain_sf(&mut self, u: usize) {
        for (a, b) in self.pairs(u) {
            for c in 0..self.principals {
                if self.sf[u][b][c] && self.has_rule(3) {
                    self.set_sf(u, a, c);
                }
            }
            if self.wrong == Some(Wrong::SfBothWays) {
                self.set_sf(u, b, a);
            }
        }
    }

    /// Every A sf B at u.
    fn pairs(&self, u: usize) -> Vec<(usize, usize)> {
        let all = (0..self.principals).flat_map(|a| (0..self.principals).map(move |b| (a, b)));
        all.filter(|&(a, b)| self.sf[u][a][b]).collect()
    }

    fn copy_sf(&mut self, from: usize, to: usize) {
        self.pairs(from).into_iter().for_each(|(a, b)| self.set_sf(to, a, b));
    }

    /// What u ≤ v gives.
    fn follow_below(&mut self, u: usize, v: usize) {
        for w in 0..self.worlds() {
            if self.below[v][w] && self.has_rule(8) {
                self.set_below(u, w);
            }
            for a in 0..self.principals {
                if self.said[a][v][w] && self.has_rule(6) {
                    self.follow_to_the_end(u, a, w);
                }
                if self.said[a][u][w] && self.wrong == Some(Wrong::Rule6Upward) {
                    self.set_said(v, a, w);
                }
            }
        }
        if self.has_rule(5) {
            self.copy_sf(u, v);
        }
        match self.wrong {
            Some(Wrong::BelowIsSaid) => (0..self.principals).for_each(|a| self.set_said(u, a, v)),
            Some(Wrong::BelowBothWays) => self.set_below(v, u),
            Some(Wrong::Rule5Backward) => self.copy_sf(v, u),
            _ => (),
        }
    }

    /// What u ≤ v and v S_A w give, by rule 6: u S_A z for each z with w ≤ z.
    fn follow_to_the_end(&mut self, u: usize, a: usize, w: usize) {
        let narrow = self.wrong == Some(Wrong::Rule6Narrow);
        for z in 0..self.worlds() {
            let there = if narrow { z == w } else { self.below[w][z] };
            if there {
                self.set_said(u, a, z);
            }
        }
    }

    /// What u S_C v gives.
    fn follow_said(&mut self, u: usize, c: usize, v: usize) {
        for w in 0..self.worlds() {
            self.follow_twice(u, c, v, w);
        }
        for a in 0..self.principals {
            if self.sf[u][a][c] && self.has_rule(2) {
                self.set_said(u, a, v);
            }
            if self.sf[u][c][a] && self.wrong == Some(Wrong::Rule2Backward) {
                self.set_said(u, a, v);
            }
        }
        if self.has_rule(4) {
            self.copy_sf(u, v);
        }
        if self.has_rule(10) || self.wrong == Some(Wrong::SaidIsBelow) {
            self.set_below(u, v);
        }
        if self.logic == Logic::Unit && self.wrong == Some(Wrong::Rule10Backward) {
            self.set_below(v, u);
        }
    }

    /// What u S_C v gives with a fact from v to w.
    fn follow_twice(&mut self, u: usize, c: usize, v: usize, w: usize) {
        for a in 0..self.principals {
            if self.said[a][v][w] && self.has_rule(9) {
                self.set_said(u, a, w);
            }
            if self.said[a][v][w] && self.wrong == Some(Wrong::Rule9First) {
                self.set_said(u, c, w);
            }
        }
    }
}
