//! `reference play [--built CALLS] < SCRIPT`: the answers of the meaning.
//! `reference judge [--built CALLS] SCRIPT ANSWERS`: whether each answer is allowed.

use reference::built::Built;
use reference::judge::{judge, Tally};
use reference::player::play;
use reference::text::{parse, Line};
use std::io::Read;
use std::process::ExitCode;

fn script(text: &[u8]) -> Result<Vec<Line>, String> {
    let lines = text.split(|b| *b == b'\n').enumerate();
    lines.map(|(i, line)| parse(line).ok_or(format!("line {} asks for nothing that is known", i + 1))).collect()
}

fn run() -> Result<(), String> {
    let mut words: Vec<String> = std::env::args().skip(1).collect();
    let mut built = Built::parse("all").expect("a known word");
    if let Some(at) = words.iter().position(|word| word == "--built") {
        built = words.get(at + 1).and_then(|calls| Built::parse(calls)).ok_or("--built takes sync, core, all, or calls with commas between them")?;
        words.drain(at..at + 2);
    }
    match words.iter().map(String::as_str).collect::<Vec<_>>().as_slice() {
        ["play"] => {
            let mut text = Vec::new();
            std::io::stdin().read_to_end(&mut text).map_err(|e| e.to_string())?;
            print!("{}", play(&built, &script(&text)?));
            Ok(())
        }
        ["judge", lines, answers] => {
            let script = script(&std::fs::read(lines).map_err(|e| format!("{lines}: {e}"))?)?;
            let answers = std::fs::read_to_string(answers).map_err(|e| format!("{answers}: {e}"))?;
            let mut tally = Tally::default();
            judge(&built, &script, &answers, &mut tally).map_err(|d| format!("line {}: {}", d.line, d.why))?;
            println!("{} calls, {} cuts, no difference", tally.calls, tally.cuts);
            Ok(())
        }
        _ => Err("usage: reference play [--built CALLS] < SCRIPT | reference judge [--built CALLS] SCRIPT ANSWERS".to_string()),
    }
}

fn main() -> ExitCode {
    match run() {
        Ok(()) => ExitCode::SUCCESS,
        Err(why) => {
            eprintln!("reference: {why}");
            ExitCode::FAILURE
        }
    }
}
