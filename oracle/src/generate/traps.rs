//! What is easy to get wrong, each trap with the derivation beside it that is granted.

use super::document::{case, text};
use super::Text;

/// Name, formulas, policy, steps, answer, place; the goal is the last formula, or the earlier one that it repeats.
type Trap = (&'static str, &'static str, &'static str, &'static str, u8, usize);

pub fn traps() -> Vec<Text> {
    let all = [&FACTS[..], &BRANCHES[..], &SUBGOALS[..], &CLAUSES[..], &ENDS[..]].concat();
    let make = |(name, forms, policy, steps, answer, place): Trap| {
        let count = steps.split(", ").count();
        case(&format!("trap-{name}"), text(forms, policy, steps), answer, place, count)
    };
    all.into_iter().map(make).collect()
}

const FACTS: [Trap; 33] = [
    // A note holds from its world on: at world 1, but not back at the root.
    ("note-here", "sf 0 1, p 0, imp 0 1", "2", "imp, note, use 0, to 1, hit, sf", 0, 0),
    ("note-not-back", "sf 0 1, p 0, imp 0 1", "2", "imp, note, use 0, to 0, hit, sf", 9, 6),
    // Not at an earlier world either where it would widen what is said there.
    ("note-too-late", "p 0, says 0 0, sf 0 1, imp 2 0, says 1 3", "1", "says, imp, note, use 0, to 1", 9, 5),
    ("note-in-time", "p 0, says 0 0, sf 0 1, says 1 0, imp 2 3", "1", "imp, note, says, use 0, to 2, hit", 0, 0),
    ("note-other-way", "p 0, says 0 0, sf 1 0, says 1 0, imp 2 3", "1", "imp, note, says, use 0, to 2, hit", 9, 5),
    // Rule 3, at one world, across worlds, and not the other way round.
    ("sf-chain", "sf 0 1, sf 1 2, sf 0 2", "0, 1", "sf", 0, 0),
    ("sf-chain-backward", "sf 0 1, sf 1 2, sf 2 0", "0, 1", "sf", 9, 1),
    ("sf-chain-noted", "sf 0 1, sf 1 2, sf 0 2, imp 1 2", "0", "imp, note, sf", 0, 0),
    ("sf-chain-twice", "sf 0 1, sf 1 2, sf 0 2, imp 0 2, imp 1 3", "", "imp, note, imp, note, sf", 0, 0),
    ("sf-itself", "sf 2 2, says 1 0", "", "says, sf", 0, 0),
    ("sf-said", "sf 0 1, says 2 0", "0", "says, sf", 0, 0),
    ("sf-said-backward", "sf 0 1, sf 1 0, says 2 1", "0", "says, sf", 9, 2),
    ("sf-after-imp", "sf 0 1, top, imp 1 0", "0", "imp, drop, sf", 0, 0),
    // Rule 9 takes the later principal; rule 6 goes before and after, and gives what is said.
    ("said-twice", "p 0, says 0 0, says 1 1", "1", "says, says, use 0, to 2, hit", 0, 0),
    ("said-twice-first", "p 0, says 1 0, says 0 0, says 1 2", "1", "says, says, use 0, to 2", 9, 4),
    ("above-then-said", "p 0, says 0 0, top, imp 2 1", "1", "imp, drop, says, use 0, to 2, hit", 0, 0),
    ("said-then-above", "p 0, says 0 0, top, imp 2 0, says 0 3", "1", "says, imp, drop, use 0, to 2, hit", 0, 0),
    ("said-then-above-other", "p 0, says 1 0, top, imp 2 0, says 0 3", "1", "says, imp, drop, use 0, to 2", 9, 5),
    (
        "said-then-above-twice",
        "p 0, says 0 0, top, imp 2 0, imp 2 3, says 0 4",
        "1",
        "says, imp, drop, imp, drop, use 0, to 3, hit",
        0,
        0,
    ),
    (
        "above-said-above",
        "p 0, says 0 0, top, imp 2 0, says 0 3, imp 2 4",
        "1",
        "imp, drop, says, imp, drop, use 0, to 3, hit",
        0,
        0,
    ),
    // By rules 2 and 9 with it: what speaks for the principal, and what is said further on.
    (
        "said-then-above-sf",
        "p 0, says 0 0, top, imp 2 0, says 1 3, sf 0 1, imp 5 4",
        "1",
        "imp, note, says, imp, drop, use 0, to 3, hit",
        0,
        0,
    ),
    ("said-above-said", "p 0, says 1 0, top, imp 2 1, says 0 3", "1", "says, imp, drop, says, use 0, to 3, hit", 0, 0),
    // A clause that is said is said up to there, and no more than said.
    (
        "said-above-not-below",
        "p 0, p 1, imp 0 1, says 0 2, top, imp 4 1, says 0 5",
        "3, 0",
        "says, imp, drop, use 0, to 2, to 2, hit, use 1, hit",
        9,
        9,
    ),
    ("said-above-not-hit", "p 0, top, imp 1 0, says 0 2", "0", "says, imp, drop, use 0, hit", 9, 5),
    ("said-above-back", "p 0, says 0 0, top, imp 2 0, says 0 3", "1", "says, imp, drop, use 0, to 0", 9, 5),
    ("above-is-not-said", "p 0, says 0 0, top, imp 2 0", "1", "imp, drop, use 0, to 1", 9, 4),
    ("said-is-not-above", "p 0, p 1, imp 1 0, says 0 0", "2", "says, use 0, to 1", 9, 3),
    ("not-said-of-itself", "p 0, says 0 0, p 0", "1", "use 0, to 0", 9, 2),
    ("not-above-backward", "p 0, p 1, imp 0 1", "2", "imp, push, use 0, to 0, hit, use 1, hit", 9, 7),
    ("above-twice", "p 0, top, imp 1 0, imp 1 2, imp 0 3", "", "imp, push, imp, drop, imp, drop, use 0, hit", 0, 0),
    ("said-between", "p 0, top, imp 1 0, says 0 2", "0", "says, imp, drop, use 0, hit", 9, 5),
    // `to` moves the focus to the world it names.
    (
        "focus-stays",
        "top, p 0, p 1, imp 1 2, imp 0 1, imp 0 2",
        "3, 4",
        "imp, drop, use 0, to 0, hit, use 1, to 0, hit, top",
        0,
        0,
    ),
    (
        "focus-moves",
        "top, p 0, p 1, imp 1 2, imp 0 1, imp 0 2",
        "3, 4",
        "imp, drop, use 0, to 0, hit, use 1, to 1, hit",
        9,
        8,
    ),
];

const BRANCHES: [Trap; 14] = [
    ("case-clause-gone", "p 0, top, or 0 1, imp 2 0", "", "imp, case, push, use 0, hit, drop, use 0", 8, 7),
    ("case-clause-other", "p 0, p 1, or 0 1, imp 2 0", "", "imp, case, push, use 0, hit, push, use 0, hit", 9, 8),
    ("case-note-gone", "sf 0 1, top, or 0 1, imp 2 0", "", "imp, case, note, sf, drop, sf", 9, 6),
    ("case-note-each", "sf 0 1, or 0 0, imp 1 0", "", "imp, case, note, sf, note, sf", 0, 0),
    (
        "case-keeps-rest",
        "p 0, sf 0 1, or 1 1, and 2 0, imp 3 0",
        "",
        "imp, split, case, note, push, use 0, hit, note, push, use 0, hit",
        0,
        0,
    ),
    ("and-worlds-again", "p 0, says 0 0, and 1 1", "1", "and, says, use 0, to 1, hit, says, use 0, to 1, hit", 0, 0),
    ("and-worlds-gone", "p 0, says 0 0, and 1 0", "1", "and, says, use 0, to 1, hit, use 0, to 1", 8, 7),
    ("and-clause-gone", "p 0, imp 0 0, and 1 0", "", "and, imp, push, use 0, hit, use 0", 8, 6),
    // The same world number in the next branch is another world.
    (
        "said-gone",
        "p 0, says 0 0, top, imp 2 0, and 1 3",
        "1",
        "and, says, use 0, to 1, hit, imp, drop, use 0, to 1",
        9,
        9,
    ),
    ("above-gone", "p 0, top, imp 1 0, says 0 0, and 2 3", "0", "and, imp, drop, use 0, hit, says, use 0, hit", 9, 8),
    ("note-gone", "sf 0 1, imp 0 0, top, imp 2 0, and 1 3", "", "and, imp, note, sf, imp, drop, sf", 9, 7),
    // A subgoal's new world is above the subgoal's own world, not above the newest.
    (
        "child-of-newest",
        "p 0, top, imp 1 0, p 1, imp 2 3, imp 0 3",
        "4",
        "imp, push, use 0, to 1, hit, imp, drop, use 1, hit",
        0,
        0,
    ),
    (
        "child-of-older",
        "p 0, top, imp 1 0, p 1, imp 2 3, imp 0 3",
        "4",
        "imp, push, use 0, to 0, hit, imp, drop, use 1, hit",
        9,
        9,
    ),
    (
        "said-by-older",
        "p 0, says 0 0, p 1, imp 1 2, imp 1 2",
        "3",
        "imp, push, use 0, to 0, hit, says, use 1, to 2",
        9,
        8,
    ),
];

const SUBGOALS: [Trap; 6] = [
    (
        "last-met-first",
        "p 0, p 1, p 2, imp 1 2, imp 0 3, p 2",
        "4, 0, 1",
        "use 0, to 0, to 0, hit, use 2, hit, use 1, hit",
        0,
        0,
    ),
    (
        "first-met-first",
        "p 0, p 1, p 2, imp 1 2, imp 0 3, p 2",
        "4, 0, 1",
        "use 0, to 0, to 0, hit, use 1, hit, use 2, hit",
        9,
        6,
    ),
    // Each subgoal is proved in the sequent that stood at `use`.
    (
        "sequent-at-use",
        "p 0, imp 0 0, p 1, imp 1 2, imp 1 3, p 1",
        "4",
        "use 0, to 0, to 0, hit, imp, push, use 1, hit, imp, push, use 1, hit",
        0,
        0,
    ),
    (
        "sequent-not-grown",
        "p 0, imp 0 0, p 1, imp 1 2, imp 1 3, p 1",
        "4",
        "use 0, to 0, to 0, hit, imp, push, use 1, hit, imp, push, use 2",
        8,
        11,
    ),
    // A subgoal is at the world that `to` named, the goal's world or not.
    ("subgoal-at-its-world", "p 0, p 1, imp 0 1, imp 0 1", "2", "imp, push, use 0, to 1, hit, use 1, hit", 0, 0),
    (
        "subgoals-before-others",
        "p 0, p 1, imp 0 1, and 1 1",
        "2, 0",
        "and, use 0, to 0, hit, use 1, hit, use 0, to 0, hit, use 1, hit",
        0,
        0,
    ),
];

const CLAUSES: [Trap; 9] = [
    ("same-atom", "p 0, p 0", "0", "use 0, hit", 0, 0),
    ("another-atom", "p 1, p 0", "0", "use 0, hit", 9, 2),
    ("sf-is-no-clause", "sf 0 1, p 0", "0, 1", "use 0", 8, 1),
    ("sf-has-a-number", "sf 0 1, p 0", "0, 1", "use 1, hit", 0, 0),
    ("push-after-sf", "sf 0 1, p 0, imp 1 1", "0, 0", "imp, push, use 2, hit", 0, 0),
    ("note-has-no-number", "sf 0 1, p 0, and 0 1, imp 2 1", "", "imp, split, note, push, use 0, hit", 0, 0),
    ("first-part-on-top", "p 0, p 1, and 0 1, imp 2 1", "", "imp, split, push, push, use 1, hit", 0, 0),
    ("push-is-at-its-world", "p 0, says 0 0, imp 0 1", "", "imp, push, says, use 0, hit", 9, 5),
    ("top-in-focus", "top, p 0", "0", "use 0, hit", 7, 2),
];

const ENDS: [Trap; 7] = [
    ("open-goal", "top, and 0 0", "", "and, top", 12, 3),
    ("open-chunks", "top, imp 0 0", "", "imp", 12, 2),
    ("open-focus", "p 0", "0", "use 0", 12, 2),
    ("open-subgoal", "p 0, p 1, imp 0 1", "2, 2", "imp, push, use 0, to 1, hit", 12, 6),
    ("closed-before-fit", "top", "", "top, use 9", 11, 2),
    ("fit-before-number", "top", "", "use 9", 7, 1),
    ("world-before-fact", "p 0, says 0 0, p 0", "1", "use 0, to 1", 8, 2),
];
