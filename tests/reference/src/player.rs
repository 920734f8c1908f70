//! Plays a script on the meaning itself, as a program does that has a card: so that the judge and the driver can be tried, and mistakes be planted.
//! Each call asks a made-up number of times; a power cut leaves one of the trees that it may leave, as the seed has it.

use crate::built::Built;
use crate::calls::{Call, Reply, State};
use crate::judge::{CUT, CUT_COMING_UP};
use crate::show;
use crate::text::{self, Line};
use crate::tree::Tree;

const ASKED_COMING_UP: u64 = 3;

fn mixed(mut z: u64) -> u64 {
    z = (z ^ (z >> 30)).wrapping_mul(0xbf58476d1ce4e5b9);
    z = (z ^ (z >> 27)).wrapping_mul(0x94d049bb133111eb);
    z ^ (z >> 31)
}

struct Player {
    built: Built,
    sectors: u64,
    state: State,
    is_up: bool,
    cut: Option<(u64, u64)>,
    turn: u64,
    asked: u64,
    last: u64,
}

impl Player {
    fn new(built: &Built, sectors: u64) -> Player {
        Player { built: built.clone(), sectors, state: State::fresh(Tree::blank()), is_up: false, cut: None, turn: 0, asked: 0, last: 0 }
    }

    /// Asks so many times; says by its seed whether power failed.
    fn ask(&mut self, times: u64) -> Option<u64> {
        self.asked += times;
        self.last = times;
        let (left, seed) = self.cut?;
        if left < times {
            self.cut = None;
            self.is_up = false;
            return Some(seed);
        }
        self.cut = Some((left - times, seed));
        None
    }

    fn fall(&mut self, trees: Vec<Tree>, seed: u64) {
        let chosen = mixed(seed) as usize % trees.len();
        self.state = State::fresh(trees[chosen].clone());
    }

    fn call(&mut self, call: &Call) -> String {
        if !self.built.can(call) {
            return "no 12".to_string();
        }
        self.turn += 1;
        let times = mixed(self.turn) % 6;
        let mut after = self.state.clone();
        let reply = after.call(call);
        if let Some(seed) = self.ask(times) {
            let mut trees = self.state.could();
            trees.extend(after.could());
            self.fall(trees, seed);
            return CUT.to_string();
        }
        if after.is_full_alone(&self.state, self.sectors) {
            return text::of_reply(&Reply::Full);
        }
        self.state = after;
        text::of_reply(&reply)
    }

    /// The answer to a line, if it gets one.
    fn line(&mut self, line: &Line) -> Option<String> {
        match line {
            Line::Nothing | Line::Card(_) => return None,
            Line::Cut { askings, seed } => {
                self.cut = Some((*askings, *seed));
                return None;
            }
            _ => {}
        }
        if !self.is_up {
            if let Some(seed) = self.ask(ASKED_COMING_UP) {
                self.fall(self.state.could(), seed);
                return Some(CUT_COMING_UP.to_string());
            }
            self.is_up = true;
        }
        Some(match line {
            Line::Ask(call) => self.call(call),
            Line::List { handle } => show::names(&self.state, &self.built, *handle).join("\n"),
            Line::Tree => show::paths(&self.state, &self.built).join("\n"),
            _ => format!("reads {} writes 0 syncs 0 last {} 0 0 up {ASKED_COMING_UP}", self.asked, self.last),
        })
    }
}

/// The answers to a script.
pub fn play(built: &Built, script: &[Line]) -> String {
    let mut out = String::new();
    let mut player = Player::new(built, 8192);
    for line in script {
        if let Line::Card(sectors) = line {
            player = Player::new(built, *sectors);
        }
        if let Some(answer) = player.line(line) {
            out.push_str(&answer);
            out.push('\n');
        }
    }
    out
}
