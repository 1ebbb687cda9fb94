//! A bounded goal-directed search. It has its own sequents and takes no help from the judge, so that what it finds
//! is a check on the judge too. A slip makes it search by one wrong rule.

use super::prng::Prng;
use super::request::Request;
use crate::facts::Facts;
use crate::limits;
use crate::tables::{Form, Step};
use crate::walk::Labelled;

/// The clauses and facts that a goal is proved from.
#[derive(Clone, Debug)]
pub struct Sequent<F> {
    pub facts: F,
    pub clauses: Vec<Labelled>,
}

impl<F: Facts> Sequent<F> {
    /// A request's policy; `facts` is the root alone.
    pub fn of(request: &Request, mut facts: F) -> Sequent<F> {
        for &line in &request.policy {
            if let Form::Sf(a, b) = request.forms[line] {
                facts.note(0, a, b);
            }
        }
        let clauses = request.policy.iter().map(|&formula| Labelled { formula, world: 0 }).collect();
        Sequent { facts, clauses }
    }
}

/// What a search gets wrong on purpose.
#[derive(Clone, Copy, Debug, PartialEq, Eq)]
pub enum Slip {
    None,
    /// Subgoals are proved first met first.
    FirstMetFirst,
    /// The second part of an `and` is proved first.
    SecondFirst,
    /// What the first branch of a `case` pushed or noted lives on in the second.
    CaseLeaks,
    /// `hit` wants w ≤ u.
    HitBackward,
    /// `to` wants no fact.
    ToAnywhere,
}

pub struct Search<'a> {
    pub forms: &'a [Form],
    pub prng: &'a mut Prng,
    /// Tries left before the search gives up.
    pub budget: usize,
    /// Worlds that a sequent may have.
    pub worlds: usize,
    pub slip: Slip,
}

type Found = Option<Vec<Step>>;

fn after(step: Step, rest: Vec<Step>) -> Found {
    Some([vec![step], rest].concat())
}

impl Search<'_> {
    /// Steps that prove a goal with at most `depth` uses on top of each other.
    pub fn prove<F: Facts>(&mut self, sequent: &Sequent<F>, goal: Labelled, depth: usize) -> Found {
        self.budget = self.budget.checked_sub(1)?;
        let part = |formula: usize| Labelled { formula, world: goal.world };
        match self.forms[goal.formula] {
            Form::P(_) => self.prove_atom(sequent, goal, depth.checked_sub(1)?),
            Form::Top => Some(vec![Step::Top]),
            Form::Bot => None,
            Form::And(first, second) => {
                let first = self.prove(sequent, part(first), depth)?;
                let second = self.prove(sequent, part(second), depth)?;
                let swapped = self.slip == Slip::SecondFirst;
                after(Step::And, if swapped { [second, first] } else { [first, second] }.concat())
            }
            Form::Or(first, second) => {
                let mut ways = [(Step::Or1, first), (Step::Or2, second)];
                self.prng.shuffle(&mut ways);
                ways.iter().find_map(|(step, way)| after(*step, self.prove(sequent, part(*way), depth)?))
            }
            Form::Imp(left, right) if sequent.facts.worlds() < self.worlds => {
                let mut inner = sequent.clone();
                let world = inner.facts.add_above(goal.world);
                after(Step::Imp, self.work_off(inner, vec![left], Labelled { formula: right, world }, depth)?)
            }
            Form::Says(principal, body) if sequent.facts.worlds() < self.worlds => {
                let mut inner = sequent.clone();
                let world = inner.facts.add_said(goal.world, principal);
                after(Step::Says, self.prove(&inner, Labelled { formula: body, world }, depth)?)
            }
            Form::Sf(a, b) if sequent.facts.is_sf(goal.world, a, b) => Some(vec![Step::Sf]),
            _ => None,
        }
    }

    fn work_off<F: Facts>(
        &mut self,
        mut sequent: Sequent<F>,
        mut chunks: Vec<usize>,
        goal: Labelled,
        depth: usize,
    ) -> Found {
        let Some(top) = chunks.pop() else {
            return self.prove(&sequent, goal, depth);
        };
        let step = match self.forms[top] {
            Form::Bot => return Some(vec![Step::Absurd]),
            Form::Or(first, second) => {
                let branch = |part: usize| [&chunks[..], &[part]].concat();
                let one = self.work_off(sequent.clone(), branch(first), goal, depth)?;
                if self.slip == Slip::CaseLeaks {
                    take_in(self.forms, &mut sequent, first, goal.world);
                }
                let other = self.work_off(sequent, branch(second), goal, depth)?;
                return after(Step::Case, [one, other].concat());
            }
            Form::And(first, second) => {
                chunks.extend([second, first]);
                (chunks.len() <= limits::CHUNKS).then_some(Step::Split)?
            }
            _ => take_in(self.forms, &mut sequent, top, goal.world)?,
        };
        after(step, self.work_off(sequent, chunks, goal, depth)?)
    }

    fn prove_atom<F: Facts>(&mut self, sequent: &Sequent<F>, goal: Labelled, depth: usize) -> Found {
        let mut numbers: Vec<usize> = (0..sequent.clauses.len()).collect();
        self.prng.shuffle(&mut numbers);
        for number in numbers {
            let on = sequent.clauses[number];
            if let Some(rest) = self.focus(sequent, on, goal, &mut Vec::new(), depth) {
                return after(Step::Use(number), rest);
            }
        }
        None
    }

    /// Steps from a focus on; an `sf` line has none.
    fn focus<F: Facts>(
        &mut self,
        sequent: &Sequent<F>,
        on: Labelled,
        goal: Labelled,
        met: &mut Vec<Labelled>,
        depth: usize,
    ) -> Found {
        self.budget = self.budget.checked_sub(1)?;
        match self.forms[on.formula] {
            Form::P(_) => {
                let same = self.forms[on.formula] == self.forms[goal.formula];
                let hits = match self.slip {
                    Slip::HitBackward => sequent.facts.is_below(goal.world, on.world),
                    _ => sequent.facts.is_below(on.world, goal.world),
                };
                after(Step::Hit, (same && hits).then(|| self.prove_met(sequent, met, depth))??)
            }
            Form::And(first, second) => {
                let mut ways = [(Step::Left, first), (Step::Right, second)];
                self.prng.shuffle(&mut ways);
                ways.into_iter().find_map(|(step, formula)| {
                    let part = Labelled { formula, world: on.world };
                    after(step, self.focus(sequent, part, goal, met, depth)?)
                })
            }
            Form::Imp(left, right) => self.worlds_to(sequent, on).into_iter().find_map(|world| {
                met.push(Labelled { formula: left, world });
                let rest = self.focus(sequent, Labelled { formula: right, world }, goal, met, depth);
                met.pop();
                after(Step::To(world), rest?)
            }),
            Form::Says(_, formula) => self.worlds_to(sequent, on).into_iter().find_map(|world| {
                after(Step::To(world), self.focus(sequent, Labelled { formula, world }, goal, met, depth)?)
            }),
            _ => None,
        }
    }

    /// The worlds that `to` may name here, in any order.
    fn worlds_to<F: Facts>(&mut self, sequent: &Sequent<F>, on: Labelled) -> Vec<usize> {
        let facts = &sequent.facts;
        let allowed = |world: usize| match self.forms[on.formula] {
            _ if self.slip == Slip::ToAnywhere => true,
            Form::Says(principal, _) => facts.is_said(on.world, principal, world),
            _ => facts.is_below(on.world, world),
        };
        let mut worlds: Vec<usize> = (0..facts.worlds()).filter(|&world| allowed(world)).collect();
        self.prng.shuffle(&mut worlds);
        worlds
    }

    fn prove_met<F: Facts>(&mut self, sequent: &Sequent<F>, met: &[Labelled], depth: usize) -> Found {
        let mut parts = Vec::new();
        for subgoal in met {
            parts.push(self.prove(sequent, *subgoal, depth)?);
        }
        if self.slip != Slip::FirstMetFirst {
            parts.reverse();
        }
        Some(parts.concat())
    }
}

/// Pushes, notes or drops a chunk that is neither `and`, `or` nor `bot`; the step that does it.
pub fn take_in<F: Facts>(forms: &[Form], sequent: &mut Sequent<F>, chunk: usize, world: usize) -> Option<Step> {
    match forms[chunk] {
        Form::P(_) | Form::Imp(..) | Form::Says(..) if sequent.clauses.len() < limits::CLAUSES => {
            sequent.clauses.push(Labelled { formula: chunk, world });
            Some(Step::Push)
        }
        Form::Sf(a, b) => {
            sequent.facts.note(world, a, b);
            Some(Step::Note)
        }
        Form::Top => Some(Step::Drop),
        _ => None,
    }
}
