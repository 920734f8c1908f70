//! Every list of up to so many calls from a fixed set, with a cut at every asking and several seeds.

use crate::options::Options;
use crate::scripts::{compare, figures, report};
use reference::judge::Tally;
use reference::text::{self, Line};
use std::time::Instant;

const SECTORS: u64 = 8192;

/// So many lists are counted by one run of the program, and scripts of so many lines together played by one.
const BATCH: usize = 200;
const LINES: usize = 10_000;

/// What every list begins on: a folder with a file in it, and a file that is open. Synced.
const BEFORE: [&str; 7] = ["makefolder /d", "open new write /d/x", "write 0 0 6f6c64", "close 0", "open new write /a", "write 0 0 616263", "sync"];

const CALLS: [&str; 22] = [
    "open may write /b",
    "open new write /d/y",
    "open old write /d/x",
    "open old read /d",
    "close 0",
    "write 0 1 7878",
    "write 0 5000 7a",
    "read 0 0 10",
    "resize 0 2",
    "resize 0 9000",
    "stat /d/x",
    "makefolder /e",
    "makefolder /d/z",
    "remove /a",
    "remove /d/x",
    "removefolder /d",
    "next 1",
    "rename /a /d/x",
    "rename /d /e",
    "join /a /b",
    "makelink a /l",
    "sync",
];

fn parsed(lines: &[&str]) -> Vec<Line> {
    lines.iter().map(|line| text::parse(line.as_bytes()).expect("a line that is known")).collect()
}

/// The calls that are built; all of them as long as hardly any is.
fn set(options: &Options) -> Vec<Line> {
    let all = parsed(&CALLS);
    let built: Vec<Line> = all.iter().filter(|line| matches!(line, Line::Ask(call) if options.built.can(call))).cloned().collect();
    if built.len() > 2 {
        return built;
    }
    all
}

/// The list of a number: its digits are calls.
fn list(mut number: usize, length: usize, calls: &[Line]) -> Vec<Line> {
    let mut list = Vec::new();
    for _ in 0..length {
        list.push(calls[number % calls.len()].clone());
        number /= calls.len();
    }
    list
}

/// The askings in all that a line of `count` tells.
fn askings(count: &str) -> Option<u64> {
    let words: Vec<&str> = count.split(' ').collect();
    let number = |at: usize| words.get(at)?.parse::<u64>().ok();
    Some(number(1)? + number(3)? + number(5)?)
}

/// How often the device is asked in each list, after what it begins on.
fn asked(options: &Options, lists: &[Vec<Line>]) -> Result<Vec<u64>, String> {
    let mut script = Vec::new();
    for list in lists {
        script.push(Line::Card(SECTORS));
        script.extend(parsed(&BEFORE));
        script.push(Line::Count);
        script.extend_from_slice(list);
        script.push(Line::Count);
    }
    let answers = options.subject.play(&script)?;
    let counts: Vec<u64> = answers.lines().filter(|line| line.starts_with("reads ")).filter_map(askings).collect();
    if counts.len() != 2 * lists.len() {
        return Err("two counts for each list are expected".to_string());
    }
    Ok(counts.chunks(2).map(|pair| pair[1] - pair[0]).collect())
}

fn with_cut(list: &[Line], askings: u64, seed: u64) -> Vec<Line> {
    let mut script = vec![Line::Card(SECTORS)];
    script.extend(parsed(&BEFORE));
    script.push(Line::Cut { askings, seed });
    script.extend_from_slice(list);
    script.push(Line::Tree);
    script
}

/// Plays what has come together.
fn flush(options: &Options, scripts: &mut Vec<Line>, tally: &mut Tally) -> Result<(), String> {
    let together = std::mem::take(scripts);
    match compare(options, &together, tally) {
        Ok(()) => Ok(()),
        Err(_) => Err(format!("after {}\n{}", figures(tally), report(options, &together))),
    }
}

pub fn run(options: &Options) -> Result<String, String> {
    let started = Instant::now();
    let calls = set(options);
    let mut tally = Tally::default();
    let mut lists_played = 0;
    let mut scripts = Vec::new();
    for length in 1..=options.length {
        let count = calls.len().pow(length as u32);
        for first in (0..count).step_by(BATCH) {
            let lists: Vec<Vec<Line>> = (first..count.min(first + BATCH)).map(|number| list(number, length, &calls)).collect();
            lists_played += lists.len();
            for (list, askings) in lists.iter().zip(asked(options, &lists)?) {
                // a cut after all askings falls in what shows the tree
                for n in 0..=askings {
                    for seed in 0..options.cut_seeds {
                        scripts.extend(with_cut(list, n, seed));
                    }
                }
                if scripts.len() > LINES {
                    flush(options, &mut scripts, &mut tally)?;
                }
            }
        }
    }
    flush(options, &mut scripts, &mut tally)?;
    Ok(format!("{lists_played} lists of up to {} calls from {}; {}; {} s", options.length, calls.len(), figures(&tally), started.elapsed().as_secs()))
}
