//! Goals built together with steps that prove them, so that large derivations need no search.

use super::prng::Prng;
use super::random::{add_chunk, add_goal, principal};
use super::request::Request;
use super::search::{take_in, Search, Sequent, Slip};
use crate::facts::{Facts, Kept};
use crate::limits;
use crate::tables::{Form, Step};
use crate::walk::Labelled;

/// A goal and the steps that prove it.
type Proved = (usize, Vec<Step>);

/// The steps up to the end of a branch of chunks, and the sequent there unless it closed by `absurd`.
type Leaf = (Vec<Step>, Option<Sequent<Kept>>);

pub struct Build<'a> {
    pub prng: &'a mut Prng,
    pub request: &'a mut Request,
}

impl Build<'_> {
    /// A goal at most `size` deep that holds at `world`.
    pub fn goal(&mut self, sequent: &Sequent<Kept>, world: usize, size: usize) -> Proved {
        let room = sequent.facts.worlds() < limits::WORLDS;
        match self.prng.weigh(if size == 0 { &[1, 0, 0, 0, 0] } else { &[1, 3, 2, 3, 3] }) {
            1 => {
                let (first, mut steps) = self.goal(sequent, world, size - 1);
                let (second, mut more) = self.goal(sequent, world, size - 1);
                steps.insert(0, Step::And);
                steps.append(&mut more);
                (self.request.add(Form::And(first, second)), steps)
            }
            2 => self.either(sequent, world, size - 1),
            3 if room => {
                let said_by = principal(self.prng, self.request);
                let mut inner = sequent.clone();
                let next = inner.facts.add_said(world, said_by);
                let (body, mut steps) = self.goal(&inner, next, size - 1);
                steps.insert(0, Step::Says);
                (self.request.add(Form::Says(said_by, body)), steps)
            }
            4 if room => self.implication(sequent, world, size - 1),
            _ => self.leaf(sequent, world),
        }
    }

    fn either(&mut self, sequent: &Sequent<Kept>, world: usize, size: usize) -> Proved {
        let (proved, mut steps) = self.goal(sequent, world, size);
        let other = add_goal(self.prng, self.request, size.min(2));
        let first = self.prng.once_in(2);
        steps.insert(0, if first { Step::Or1 } else { Step::Or2 });
        (self.request.add(if first { Form::Or(proved, other) } else { Form::Or(other, proved) }), steps)
    }

    /// Each branch of the chunk proves its own goal; the goal after the chunk is the `or` of all these.
    fn implication(&mut self, sequent: &Sequent<Kept>, world: usize, size: usize) -> Proved {
        let depth = self.prng.below(4);
        let chunk = add_chunk(self.prng, self.request, depth);
        let mut inner = sequent.clone();
        let next = inner.facts.add_above(world);
        let mut leaves = Vec::new();
        self.work_off(inner, vec![chunk], next, Vec::new(), &mut leaves);
        let open = leaves.iter().filter(|(_, sequent)| sequent.is_some()).count();
        let each_size = if open > 1 { size.min(1) } else { size };
        let mut goals = Vec::new();
        let mut parts = Vec::new();
        for (steps, sequent) in leaves {
            let proof = sequent.map(|sequent| {
                let (goal, proof) = self.goal(&sequent, next, each_size);
                goals.push(goal);
                (goals.len() - 1, proof)
            });
            parts.push((steps, proof));
        }
        let right = self.any_of(&goals, size);
        let mut steps = vec![Step::Imp];
        for (work, proof) in parts {
            steps.extend(work);
            if let Some((place, proof)) = proof {
                steps.extend(way_to(place, goals.len()));
                steps.extend(proof);
            }
        }
        (self.request.add(Form::Imp(chunk, right)), steps)
    }

    /// goals[0] or (goals[1] or (...)); anything at all where no branch is left to prove it.
    fn any_of(&mut self, goals: &[usize], size: usize) -> usize {
        let Some((last, earlier)) = goals.split_last() else {
            return add_goal(self.prng, self.request, size.min(2));
        };
        earlier.iter().rev().fold(*last, |rest, goal| self.request.add(Form::Or(*goal, rest)))
    }

    /// Works the chunks off; every branch's end is added to `leaves`, in the order of the steps.
    fn work_off(
        &mut self,
        mut sequent: Sequent<Kept>,
        mut chunks: Vec<usize>,
        world: usize,
        mut steps: Vec<Step>,
        leaves: &mut Vec<Leaf>,
    ) {
        let Some(top) = chunks.pop() else {
            return leaves.push((steps, Some(sequent)));
        };
        match self.request.forms[top] {
            Form::Bot => {
                steps.push(Step::Absurd);
                return leaves.push((steps, None));
            }
            Form::Or(first, second) => {
                steps.push(Step::Case);
                let branch = |part: usize| [&chunks[..], &[part]].concat();
                self.work_off(sequent.clone(), branch(first), world, steps, leaves);
                return self.work_off(sequent, branch(second), world, Vec::new(), leaves);
            }
            Form::And(first, second) => {
                chunks.extend([second, first]);
                steps.push(Step::Split);
            }
            _ => steps.extend(take_in(&self.request.forms, &mut sequent, top, world)),
        }
        self.work_off(sequent, chunks, world, steps, leaves);
    }

    /// An atom that some clause gives here, or an `sf` that holds, or `top`.
    fn leaf(&mut self, sequent: &Sequent<Kept>, world: usize) -> Proved {
        let tries = self.prng.pick(&[0, 4, 4, 4]);
        for _ in 0..tries {
            if let Some(proved) = self.aim(sequent, world) {
                return proved;
            }
        }
        let principals = self.request.principals;
        let pairs = (0..principals).flat_map(|a| (0..principals).map(move |b| (a, b)));
        let held: Vec<(usize, usize)> = pairs.filter(|&(a, b)| sequent.facts.is_sf(world, a, b)).collect();
        if self.prng.once_in(4) {
            return (self.request.add(Form::Top), vec![Step::Top]);
        }
        let (a, b) = self.prng.pick(&held);
        (self.request.add(Form::Sf(a, b)), vec![Step::Sf])
    }

    /// Tries to reach an atom at its end through a random clause and proves what that takes.
    fn aim(&mut self, sequent: &Sequent<Kept>, world: usize) -> Option<Proved> {
        if sequent.clauses.is_empty() {
            return None;
        }
        let number = self.prng.below(sequent.clauses.len());
        let formula = self.atom_within(sequent.clauses[number].formula)?;
        let mut search = Search {
            forms: &self.request.forms,
            prng: self.prng,
            budget: 60,
            worlds: limits::WORLDS,
            slip: Slip::None,
        };
        let steps = search.prove(sequent, Labelled { formula, world }, 3)?;
        Some((formula, steps))
    }

    /// One of the atoms at which a focus on this clause can end.
    fn atom_within(&mut self, clause: usize) -> Option<usize> {
        match self.request.forms[clause] {
            Form::P(_) => Some(clause),
            Form::And(first, second) => {
                let part = self.prng.pick(&[first, second]);
                self.atom_within(part)
            }
            Form::Imp(_, part) | Form::Says(_, part) => self.atom_within(part),
            _ => None,
        }
    }
}

/// The steps to part `place` of an `or` of `count` goals that nests to the right.
fn way_to(place: usize, count: usize) -> Vec<Step> {
    let mut steps = vec![Step::Or2; place];
    if place + 1 < count {
        steps.push(Step::Or1);
    }
    steps
}
