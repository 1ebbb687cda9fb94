//! The walk: obligations, and what each of the eighteen steps makes of the current one.

use crate::answers::refusal::{ALL_CLOSED, DOES_NOT_FIT, FACT_ABSENT, NO_SUCH_NUMBER, PAST_LIMIT};
use crate::facts::Facts;
use crate::limits;
use crate::tables::{Form, Forms, Step};

/// A formula at a world.
#[derive(Clone, Copy, Debug, PartialEq, Eq)]
pub struct Labelled {
    pub formula: usize,
    pub world: usize,
}

/// Where an obligation stands.
#[derive(Clone, Debug, PartialEq, Eq)]
pub enum Phase {
    Goal,
    /// The chunks, all at the goal's world, the top one last; never none.
    Chunks(Vec<usize>),
    /// The clause in focus and the subgoals met, the last met last.
    Focus {
        on: Labelled,
        subgoals: Vec<Labelled>,
    },
}

/// A labelled goal with its phase; the sequent is the walk's.
#[derive(Clone, Debug, PartialEq, Eq)]
pub struct Obligation {
    pub goal: Labelled,
    pub phase: Phase,
}

/// An obligation for later, with the way back to its sequent.
#[derive(Clone, Debug)]
struct Waiting<M> {
    obligation: Obligation,
    clauses: usize,
    mark: M,
}

/// The current obligation, its sequent, and those waiting, the next one last.
#[derive(Clone, Debug)]
pub struct Walk<'a, F: Facts> {
    forms: Forms<'a>,
    facts: F,
    clauses: Vec<Labelled>,
    current: Option<Obligation>,
    waiting: Vec<Waiting<F::Mark>>,
}

impl<'a, F: Facts> Walk<'a, F> {
    /// The policy's sequent with the goal at the root.
    pub fn new(forms: Forms<'a>, policy: &[u16], goal: usize, mut facts: F) -> Walk<'a, F> {
        let labelled = |formula: usize| Labelled { formula, world: 0 };
        for &line in policy {
            if let Form::Sf(a, b) = forms.at(line.into()) {
                facts.note(0, a, b);
            }
        }
        let clauses = policy.iter().map(|&line| labelled(line.into())).collect();
        let current = Some(Obligation { goal: labelled(goal), phase: Phase::Goal });
        Walk { forms, facts, clauses, current, waiting: Vec::new() }
    }

    /// The current obligation; none once everything is closed.
    pub fn current(&self) -> Option<&Obligation> {
        self.current.as_ref()
    }

    pub fn worlds(&self) -> usize {
        self.facts.worlds()
    }

    pub fn clauses(&self) -> usize {
        self.clauses.len()
    }

    /// Takes one step; a refused one changes nothing.
    pub fn take(&mut self, step: Step) -> Result<(), u8> {
        let Some(current) = &self.current else {
            return Err(ALL_CLOSED);
        };
        let goal = current.goal;
        match &current.phase {
            Phase::Goal => self.take_at_goal(step, goal),
            Phase::Chunks(chunks) => {
                let rest = chunks[..chunks.len() - 1].to_vec();
                self.take_at_chunk(step, goal, chunks[rest.len()], rest)
            }
            Phase::Focus { on, .. } => self.take_in_focus(step, goal, *on),
        }
    }

    fn take_at_goal(&mut self, step: Step, goal: Labelled) -> Result<(), u8> {
        let part = |formula: usize| Labelled { formula, world: goal.world };
        match (step, self.forms.at(goal.formula)) {
            (Step::And, Form::And(first, second)) => {
                self.check_open()?;
                self.wait(part(second), Phase::Goal);
                self.go_on(part(first), Phase::Goal);
            }
            (Step::Or1, Form::Or(first, _)) => self.go_on(part(first), Phase::Goal),
            (Step::Or2, Form::Or(_, second)) => self.go_on(part(second), Phase::Goal),
            (Step::Imp, Form::Imp(left, right)) => {
                self.check_worlds()?;
                let world = self.facts.add_above(goal.world);
                self.go_on(Labelled { formula: right, world }, Phase::Chunks(vec![left]));
            }
            (Step::Says, Form::Says(principal, body)) => {
                self.check_worlds()?;
                let world = self.facts.add_said(goal.world, principal);
                self.go_on(Labelled { formula: body, world }, Phase::Goal);
            }
            (Step::Top, Form::Top) => self.close(),
            (Step::Sf, Form::Sf(a, b)) => {
                check_fact(self.facts.is_sf(goal.world, a, b))?;
                self.close();
            }
            (Step::Use(number), Form::P(_)) => {
                let on = self.clause_to_use(number)?;
                self.go_on(goal, Phase::Focus { on, subgoals: Vec::new() });
            }
            _ => return Err(DOES_NOT_FIT),
        }
        Ok(())
    }

    fn take_at_chunk(&mut self, step: Step, goal: Labelled, top: usize, rest: Vec<usize>) -> Result<(), u8> {
        match (step, self.forms.at(top)) {
            (Step::Push, Form::P(_) | Form::Imp(..) | Form::Says(..)) => {
                check_limit(self.clauses.len() + 1, limits::CLAUSES)?;
                self.clauses.push(Labelled { formula: top, world: goal.world });
                self.go_on(goal, after_chunk(rest));
            }
            (Step::Split, Form::And(first, second)) => {
                check_limit(rest.len() + 2, limits::CHUNKS)?;
                self.go_on(goal, Phase::Chunks([rest, vec![second, first]].concat()));
            }
            (Step::Case, Form::Or(first, second)) => {
                self.check_open()?;
                self.wait(goal, Phase::Chunks([&rest[..], &[second]].concat()));
                self.go_on(goal, Phase::Chunks([&rest[..], &[first]].concat()));
            }
            (Step::Absurd, Form::Bot) => self.close(),
            (Step::Drop, Form::Top) => self.go_on(goal, after_chunk(rest)),
            (Step::Note, Form::Sf(a, b)) => {
                self.facts.note(goal.world, a, b);
                self.go_on(goal, after_chunk(rest));
            }
            _ => return Err(DOES_NOT_FIT),
        }
        Ok(())
    }

    fn take_in_focus(&mut self, step: Step, goal: Labelled, on: Labelled) -> Result<(), u8> {
        match (step, self.forms.at(on.formula)) {
            (Step::Left, Form::And(first, _)) => self.focus_on(first, on.world),
            (Step::Right, Form::And(_, second)) => self.focus_on(second, on.world),
            (Step::To(world), Form::Imp(left, right)) => {
                self.check_world(world)?;
                check_fact(self.facts.is_below(on.world, world))?;
                self.check_open()?;
                self.subgoals().push(Labelled { formula: left, world });
                self.focus_on(right, world);
            }
            (Step::To(world), Form::Says(principal, body)) => {
                self.check_world(world)?;
                check_fact(self.facts.is_said(on.world, principal, world))?;
                self.focus_on(body, world);
            }
            (Step::Hit, Form::P(atom)) => {
                check_fact(Form::P(atom) == self.forms.at(goal.formula))?;
                check_fact(self.facts.is_below(on.world, goal.world))?;
                for subgoal in std::mem::take(self.subgoals()) {
                    self.wait(subgoal, Phase::Goal);
                }
                self.close();
            }
            _ => return Err(DOES_NOT_FIT),
        }
        Ok(())
    }

    fn go_on(&mut self, goal: Labelled, phase: Phase) {
        self.current = Some(Obligation { goal, phase });
    }

    /// Leaves an obligation for later, in the sequent as it stands.
    fn wait(&mut self, goal: Labelled, phase: Phase) {
        let obligation = Obligation { goal, phase };
        self.waiting.push(Waiting { obligation, clauses: self.clauses.len(), mark: self.facts.mark() });
    }

    /// Closes the current obligation; worlds, facts and clauses made since the next one began to wait are gone.
    fn close(&mut self) {
        self.current = self.waiting.pop().map(|waiting| {
            self.clauses.truncate(waiting.clauses);
            self.facts.restore(&waiting.mark);
            waiting.obligation
        });
    }

    fn focus_on(&mut self, formula: usize, world: usize) {
        if let Some(Obligation { phase: Phase::Focus { on, .. }, .. }) = &mut self.current {
            *on = Labelled { formula, world };
        }
    }

    /// The subgoals met since `use`.
    fn subgoals(&mut self) -> &mut Vec<Labelled> {
        match &mut self.current {
            Some(Obligation { phase: Phase::Focus { subgoals, .. }, .. }) => subgoals,
            _ => unreachable!("asked in focus only"),
        }
    }

    /// Open obligations: the current one, those waiting, the subgoals met.
    fn open(&self) -> usize {
        let met = match &self.current {
            Some(Obligation { phase: Phase::Focus { subgoals, .. }, .. }) => subgoals.len(),
            _ => 0,
        };
        1 + self.waiting.len() + met
    }

    fn check_open(&self) -> Result<(), u8> {
        check_limit(self.open() + 1, limits::OPEN)
    }

    fn check_worlds(&self) -> Result<(), u8> {
        check_limit(self.facts.worlds() + 1, limits::WORLDS)
    }

    fn check_world(&self, world: usize) -> Result<(), u8> {
        if world < self.facts.worlds() {
            Ok(())
        } else {
            Err(NO_SUCH_NUMBER)
        }
    }

    /// An `sf` line has a number but is no clause to use.
    fn clause_to_use(&self, number: usize) -> Result<Labelled, u8> {
        match self.clauses.get(number) {
            Some(clause) if !matches!(self.forms.at(clause.formula), Form::Sf(..)) => Ok(*clause),
            _ => Err(NO_SUCH_NUMBER),
        }
    }
}

/// With the last chunk worked off, the goal is next.
fn after_chunk(rest: Vec<usize>) -> Phase {
    if rest.is_empty() {
        Phase::Goal
    } else {
        Phase::Chunks(rest)
    }
}

fn check_fact(holds: bool) -> Result<(), u8> {
    if holds {
        Ok(())
    } else {
        Err(FACT_ABSENT)
    }
}

fn check_limit(count: usize, limit: usize) -> Result<(), u8> {
    if count <= limit {
        Ok(())
    } else {
        Err(PAST_LIMIT)
    }
}
