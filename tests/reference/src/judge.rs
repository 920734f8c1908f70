//! Says of each answer to a script whether it is allowed: the one of the meaning, 12 where a call is not built, full where the sum allows it, and after a power cut any tree of the set.
//! All states that are still possible are kept, and each answer leaves those that give it.

use crate::built::Built;
use crate::calls::{Call, Reply, State};
use crate::show;
use crate::text::{self, Line};
use crate::tree::Tree;
use std::collections::HashSet;

/// What the program that plays the script prints where power failed in a call, and where it failed before the call in coming up.
pub const CUT: &str = "cut";
pub const CUT_COMING_UP: &str = "cut coming up";

/// From so many trees on those that are the same are looked for.
const MANY: usize = 16;

/// Of how many things it was judge.
#[derive(Clone, Copy, Default)]
pub struct Tally {
    pub scripts: u64,
    pub calls: u64,
    pub refused: u64,
    pub not_built: u64,
    pub full: u64,
    pub cuts: u64,
    pub cuts_coming_up: u64,
    pub trees: u64,
    pub most_possible: u64,
}

impl Tally {
    pub fn add(&mut self, other: &Tally) {
        self.scripts += other.scripts;
        self.calls += other.calls;
        self.refused += other.refused;
        self.not_built += other.not_built;
        self.full += other.full;
        self.cuts += other.cuts;
        self.cuts_coming_up += other.cuts_coming_up;
        self.trees += other.trees;
        self.most_possible = self.most_possible.max(other.most_possible);
    }
}

pub struct Judge {
    built: Built,
    sectors: u64,
    possible: Vec<State>,
    /// Whether a cut is to come.
    cut_set: bool,
    pub tally: Tally,
}

/// The answers that are still to be judged.
pub struct Answers<'a> {
    lines: std::iter::Peekable<std::str::Split<'a, char>>,
}

impl<'a> Answers<'a> {
    pub fn new(text: &'a str) -> Answers<'a> {
        Answers { lines: text.strip_suffix('\n').unwrap_or(text).split('\n').peekable() }
    }

    pub fn next(&mut self) -> Option<&'a str> {
        self.lines.next()
    }

    /// A list up to the line that closes it; or one line alone that says why there is none.
    fn block(&mut self, ends: impl Fn(&str) -> bool) -> Vec<&'a str> {
        let mut lines = Vec::new();
        for line in self.lines.by_ref() {
            lines.push(line);
            if line == show::END || (lines.len() == 1 && ends(line)) {
                break;
            }
        }
        lines
    }
}

fn is_cut(line: &str) -> bool {
    line == CUT || line == CUT_COMING_UP
}

fn one_of(mut expected: Vec<String>) -> String {
    expected.sort();
    expected.dedup();
    let more = expected.len().saturating_sub(4);
    expected.truncate(4);
    let mut text = expected.join("\n    or ");
    if more > 0 {
        text.push_str(&format!("\n    or {more} others"));
    }
    text
}

impl Judge {
    pub fn new(built: Built, sectors: u64) -> Judge {
        let tally = Tally { scripts: 1, ..Tally::default() };
        Judge { built, sectors, possible: vec![State::fresh(Tree::blank())], cut_set: false, tally }
    }

    /// Judges the answer to a line. An error says what was expected.
    pub fn line(&mut self, line: &Line, answers: &mut Answers) -> Result<(), String> {
        match line {
            Line::Nothing | Line::Card(_) => Ok(()),
            Line::Cut { .. } => {
                self.cut_set = true;
                Ok(())
            }
            Line::Ask(call) => {
                let answer = answers.next().ok_or("the answers end here")?;
                self.asked(call, answer)
            }
            Line::Count => self.counted(answers.next().ok_or("the answers end here")?),
            Line::List { handle } => {
                let block = answers.block(|line| is_cut(line) || line.starts_with("no "));
                let handle = *handle;
                self.listed(&block, move |state, built| show::names(state, built, handle))
            }
            Line::Tree => {
                self.tally.trees += 1;
                let block = answers.block(is_cut);
                self.listed(&block, show::paths)
            }
        }
    }

    fn asked(&mut self, call: &Call, answer: &str) -> Result<(), String> {
        self.tally.calls += 1;
        self.tally.refused += u64::from(answer.starts_with("no "));
        if is_cut(answer) {
            return self.cut(Some(call), answer);
        }
        if !self.built.can(call) {
            self.tally.not_built += 1;
            return match answer {
                "no 12" => Ok(()),
                _ => Err(format!("expected no 12 (not built), got {answer}")),
            };
        }
        let mut left = Vec::new();
        let mut expected = Vec::new();
        for before in std::mem::take(&mut self.possible) {
            let mut after = before.clone();
            let said = text::of_reply(&after.call(call));
            if said == answer {
                left.push(after);
            } else if answer == "full" && after.may_be_full(&before, self.sectors) {
                self.tally.full += 1;
                left.push(before);
            } else {
                expected.push(said);
            }
        }
        self.keep(left, expected, answer)
    }

    fn keep(&mut self, left: Vec<State>, expected: Vec<String>, answer: &str) -> Result<(), String> {
        self.tally.most_possible = self.tally.most_possible.max(left.len() as u64);
        self.possible = left;
        if self.possible.is_empty() {
            return Err(format!("expected {}\ngot {answer}", one_of(expected)));
        }
        Ok(())
    }

    fn listed(&mut self, block: &[&str], show: impl Fn(&State, &Built) -> Vec<String>) -> Result<(), String> {
        if let [answer] = block {
            if is_cut(answer) {
                return self.cut(None, answer);
            }
        }
        let mut left = Vec::new();
        let mut expected = Vec::new();
        for state in std::mem::take(&mut self.possible) {
            let lines = show(&state, &self.built);
            if lines == block {
                left.push(state);
            } else {
                expected.push(lines.join("\n    "));
            }
        }
        self.keep(left, expected, &block.join("\n    "))
    }

    /// Power failed: the call counts as made or not, unless the desk was only coming up.
    fn cut(&mut self, call: Option<&Call>, answer: &str) -> Result<(), String> {
        if !self.cut_set {
            return Err(format!("no cut was to come, got {answer}"));
        }
        self.cut_set = false;
        self.tally.cuts += 1;
        self.tally.cuts_coming_up += u64::from(answer == CUT_COMING_UP);
        let mut versions = HashSet::new();
        let mut left = Vec::new();
        for state in &self.possible {
            let mut trees = state.could();
            if let Some(call) = call {
                if answer == CUT && self.built.can(call) {
                    let mut made = state.clone();
                    if !matches!(made.call(call), Reply::No(_)) {
                        trees.extend(made.could());
                    }
                }
            }
            left.extend(trees.into_iter().filter(|tree| versions.insert(tree.version())));
        }
        if left.len() > MANY {
            let mut seen = HashSet::new();
            left.retain(|tree| seen.insert(tree.fingerprint()));
        }
        self.tally.most_possible = self.tally.most_possible.max(left.len() as u64);
        self.possible = left.into_iter().map(State::fresh).collect();
        Ok(())
    }

    /// `reads R writes W syncs S last r w s up u`: coming up and the last call read no more sectors than they may.
    fn counted(&mut self, answer: &str) -> Result<(), String> {
        if is_cut(answer) {
            return self.cut(None, answer);
        }
        let words: Vec<&str> = answer.split(' ').collect();
        let &["reads", _, "writes", _, "syncs", _, "last", last, _, _, "up", up] = words.as_slice() else {
            return Err(format!("expected counts, got {answer}"));
        };
        let number = |word: &str| word.parse::<u64>().map_err(|_| format!("expected counts, got {answer}"));
        let (last, up) = (number(last)?, number(up)?);
        let deepest = self.possible.iter().map(|state| state.now.deepest()).max().unwrap_or(0);
        if up * 64 > 4096 + self.sectors || last > (1 << 20) + 64 * deepest {
            return Err(format!("expected at most {} sectors read in coming up and {} in a call, got {answer}", 64 + self.sectors / 64, (1 << 20) + 64 * deepest));
        }
        Ok(())
    }

    /// To hold running sums to sums made anew.
    pub fn check(&self) {
        for state in &self.possible {
            state.now.check();
        }
    }
}

/// What is wrong with the answers to a script: at which line, counted from 1, and what was expected.
pub struct Difference {
    pub line: usize,
    pub why: String,
}

/// Judges the answers to a script. A line that is a number alone begins another script, on a blank card.
pub fn judge(built: &Built, script: &[Line], answers: &str, tally: &mut Tally) -> Result<(), Difference> {
    let mut answers = Answers::new(answers);
    let mut judge: Option<Judge> = None;
    for (i, line) in script.iter().enumerate() {
        let at = i + 1;
        if let Line::Card(sectors) = line {
            if let Some(judge) = judge.take() {
                judge.check();
                tally.add(&judge.tally);
            }
            judge = Some(Judge::new(built.clone(), *sectors));
            continue;
        }
        let judge = judge.as_mut().ok_or(Difference { line: at, why: "a script begins with the size of its card".to_string() })?;
        judge.line(line, &mut answers).map_err(|why| Difference { line: at, why })?;
    }
    if let Some(judge) = judge {
        judge.check();
        tally.add(&judge.tally);
    }
    match answers.next() {
        None | Some("") => Ok(()),
        Some(more) => Err(Difference { line: script.len(), why: format!("expected no more answers, got {more}") }),
    }
}
