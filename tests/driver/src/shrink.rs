//! Shortens a script as long as it still differs.

use reference::calls::Call;
use reference::text::Line;
use std::time::{Duration, Instant};

const LONGEST: Duration = Duration::from_secs(60);

/// The shortest script found; the first line, the size of the card, stays.
pub fn shrink(script: Vec<Line>, differs: &dyn Fn(&[Line]) -> bool) -> Vec<Line> {
    let started = Instant::now();
    let mut best = script;
    loop {
        let before = best.clone();
        best = fewer(best, differs, started);
        best = simpler(best, differs, started);
        if best == before || started.elapsed() > LONGEST {
            return best;
        }
    }
}

/// Leaves out runs of lines, long ones first.
fn fewer(mut best: Vec<Line>, differs: &dyn Fn(&[Line]) -> bool, started: Instant) -> Vec<Line> {
    let mut run = (best.len() / 2).max(1);
    loop {
        let mut at = 1;
        while at < best.len() {
            if started.elapsed() > LONGEST {
                return best;
            }
            let mut shorter = best[..at].to_vec();
            shorter.extend_from_slice(&best[(at + run).min(best.len())..]);
            if differs(&shorter) {
                best = shorter;
            } else {
                at += run;
            }
        }
        if run == 1 {
            return best;
        }
        run /= 2;
    }
}

/// Makes numbers and bytes smaller, line by line.
fn simpler(mut best: Vec<Line>, differs: &dyn Fn(&[Line]) -> bool, started: Instant) -> Vec<Line> {
    for at in 0..best.len() {
        for line in simpler_lines(&best[at]) {
            if started.elapsed() > LONGEST {
                return best;
            }
            let mut other = best.clone();
            other[at] = line;
            if differs(&other) {
                best = other;
                break;
            }
        }
    }
    best
}

fn lower(n: u64) -> Vec<u64> {
    let mut all = vec![0, 1, n / 2, n.saturating_sub(1)];
    all.retain(|m| *m < n);
    all
}

fn simpler_lines(line: &Line) -> Vec<Line> {
    match line {
        Line::Card(sectors) if *sectors > 8192 => vec![Line::Card(8192)],
        Line::Cut { askings, seed } => {
            let fewer = lower(*askings).into_iter().map(|askings| Line::Cut { askings, seed: *seed });
            fewer.chain(lower(*seed).into_iter().take(2).map(|seed| Line::Cut { askings: *askings, seed })).collect()
        }
        Line::Ask(Call::Write { handle, from, bytes }) => {
            let shorter = [1, bytes.len() / 2, bytes.len().saturating_sub(1)].into_iter().filter(|n| *n < bytes.len());
            let with = |bytes: Vec<u8>, from: u64| Line::Ask(Call::Write { handle: *handle, from, bytes });
            shorter.map(|n| with(bytes[..n].to_vec(), *from)).chain(lower(*from).into_iter().map(|from| with(bytes.clone(), from))).collect()
        }
        Line::Ask(Call::Resize { handle, size }) => lower(*size).into_iter().map(|size| Line::Ask(Call::Resize { handle: *handle, size })).collect(),
        Line::Ask(Call::Read { handle, from, most }) => {
            let nearer = lower(*from).into_iter().map(|from| Line::Ask(Call::Read { handle: *handle, from, most: *most }));
            nearer.chain(lower(*most).into_iter().map(|most| Line::Ask(Call::Read { handle: *handle, from: *from, most }))).collect()
        }
        _ => Vec::new(),
    }
}
