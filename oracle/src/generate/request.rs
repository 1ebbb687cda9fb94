//! A request under construction, of any size, and its text and tables.

use super::{Text, Want};
use crate::answers::is_unread;
use crate::limits;
use crate::tables::{Counts, Form, Logic, Operand, Step, KINDS, STEPS};

#[derive(Clone, Debug, PartialEq, Eq)]
pub struct Request {
    pub version: usize,
    pub logic: Logic,
    pub principals: usize,
    pub atoms: usize,
    pub forms: Vec<Form>,
    pub policy: Vec<usize>,
    pub goal: usize,
    pub steps: Vec<Step>,
    /// Whether a formula that is there already is named again instead of added again.
    pub share: bool,
}

impl Request {
    pub fn new(principals: usize, atoms: usize) -> Request {
        Request {
            version: 1,
            logic: Logic::Plain,
            principals,
            atoms,
            forms: Vec::new(),
            policy: Vec::new(),
            goal: 0,
            steps: Vec::new(),
            share: true,
        }
    }

    /// The same request in version 2, with this logic.
    pub fn of_logic(self, logic: Logic) -> Request {
        Request { version: 2, logic, ..self }
    }

    /// The number of a formula, added if need be.
    pub fn add(&mut self, form: Form) -> usize {
        if self.share {
            if let Some(number) = self.forms.iter().position(|there| *there == form) {
                return number;
            }
        }
        self.forms.push(form);
        self.forms.len() - 1
    }

    pub fn counts(&self) -> Counts {
        Counts {
            version: self.version,
            logic: self.logic,
            principals: self.principals,
            atoms: self.atoms,
            formulas: self.forms.len(),
            lines: self.policy.len(),
            goal: self.goal,
            steps: self.steps.len(),
        }
    }

    /// Whether every count is allowed, so that the request reads.
    pub fn has_legal_counts(&self) -> bool {
        (1..=limits::FORMULAS).contains(&self.forms.len())
            && self.policy.len() <= limits::LINES
            && (1..=limits::STEPS).contains(&self.steps.len())
    }

    /// Tables just long enough for the largest counts; the counts here must be allowed.
    pub fn tables(&self) -> (Vec<u16>, Vec<u16>, Vec<u16>) {
        let narrow = |number: usize| u16::try_from(number).expect("a number that tables can hold");
        let mut forms: Vec<u16> = self.forms.iter().flat_map(|form| form.entry().map(narrow)).collect();
        let mut clauses: Vec<u16> = self.policy.iter().map(|&line| narrow(line)).collect();
        let mut steps: Vec<u16> = self.steps.iter().flat_map(|step| step.entry().map(narrow)).collect();
        forms.resize(limits::FORMS_ROOM, 0);
        clauses.resize(limits::CLAUSES_ROOM, 0);
        steps.resize(limits::STEPS_ROOM, 0);
        (forms, clauses, steps)
    }

    /// The text, written whatever the sizes are.
    pub fn text(&self) -> Vec<u8> {
        let mut text = format!("version={}\n", self.version);
        if self.version == 2 {
            text += &format!("logic={}\n", self.logic.word());
        }
        text += &format!("principals={}\natoms={}\n", self.principals, self.atoms);
        text += &format!("formulas={}\n", self.forms.len());
        for form in &self.forms {
            text += &format!("form={}\n", form_words(*form));
        }
        text += &format!("clauses={}\n", self.policy.len());
        for line in &self.policy {
            text += &format!("clause={line}\n");
        }
        text += &format!("goal={}\nsteps={}\n", self.goal, self.steps.len());
        for step in &self.steps {
            text += &format!("step={}\n", step_words(*step));
        }
        text.into_bytes()
    }

    /// The text under a name, its answer not known beforehand.
    pub fn named(&self, name: impl Into<String>) -> Text {
        Text { name: name.into(), bytes: self.text(), want: None }
    }

    /// The text with an answer that is known from how it was made.
    pub fn wanting(&self, name: impl Into<String>, answer: u8, place: usize) -> Text {
        let steps = if is_unread(answer) { 0 } else { self.steps.len() };
        Text { want: Some(Want::new(answer, place, steps)), ..self.named(name) }
    }
}

fn form_words(form: Form) -> String {
    let [kind, operands @ ..] = form.entry();
    let (word, wanted) = KINDS[kind];
    let there = operands.iter().zip(wanted).filter(|(_, wanted)| *wanted != Operand::Nothing);
    there.fold(word.to_string(), |words, (operand, _)| format!("{words} {operand}"))
}

fn step_words(step: Step) -> String {
    let word = STEPS[step.entry()[0]].0;
    match step.number() {
        Some(number) => format!("{word} {number}"),
        None => word.to_string(),
    }
}
