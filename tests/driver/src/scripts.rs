//! Scripts played through the program under test and judged by the meaning: fixed ones, and random ones.

use crate::generate::{Generator, Limits};
use crate::options::Options;
use crate::shrink::shrink;
use reference::judge::{judge, Difference, Tally};
use reference::player::play;
use reference::text::{self, Line};
use reference::walk::MOST_LINKS;
use std::time::Instant;

/// So many scripts are played by one run of the program.
const BATCH: u64 = 16;

/// Plays a script and judges the answers.
pub fn compare(options: &Options, script: &[Line], tally: &mut Tally) -> Result<(), Difference> {
    let answers = options.subject.play(script).map_err(|why| Difference { line: script.len(), why })?;
    judge(&options.built, script, &answers, tally)
}

/// The single scripts of several.
fn each_card(script: &[Line]) -> Vec<Vec<Line>> {
    let mut all: Vec<Vec<Line>> = Vec::new();
    for line in script {
        if matches!(line, Line::Card(_)) {
            all.push(Vec::new());
        }
        if let Some(last) = all.last_mut() {
            last.push(line.clone());
        }
    }
    all
}

pub fn shown(script: &[Line]) -> String {
    script.iter().map(|line| format!("  {}\n", text::of_line(line))).collect()
}

/// What is said of a script that differs: the shortest that still does, its answers, and why.
pub fn report(options: &Options, scripts: &[Line]) -> String {
    let differs = |script: &[Line]| compare(options, script, &mut Tally::default()).is_err();
    let alone = each_card(scripts).into_iter().find(|script| differs(script));
    let Some(alone) = alone else {
        return format!("only where these scripts follow each other:\n{}", shown(scripts));
    };
    let length = alone.len();
    let short = shrink(alone, &differs);
    let why = match compare(options, &short, &mut Tally::default()) {
        Err(difference) => format!("line {}: {}", difference.line, difference.why),
        Ok(()) => "it differs only sometimes".to_string(),
    };
    let answers = options.subject.play(&short).unwrap_or_else(|why| why);
    format!("the shortest script that differs ({} lines of {length}):\n{}answers:\n  {}\n{why}", short.len(), shown(&short), answers.trim_end().replace('\n', "\n  "))
}

pub fn figures(tally: &Tally) -> String {
    let Tally { scripts, calls, refused, not_built, full, cuts, cuts_coming_up, trees, most_possible } = tally;
    format!("{scripts} scripts, {calls} calls ({refused} refused, {not_built} of them not built; {full} full), {cuts} cuts ({cuts_coming_up} in coming up), {trees} trees, at most {most_possible} states possible")
}

fn limits(options: &Options) -> Limits {
    Limits { lines: options.lines, cuts: options.cuts, furthest: 1 << 21, most_links: u64::from(MOST_LINKS) }
}

/// The random script of the seed, as it is typed.
pub fn of_seed(options: &Options) -> String {
    Generator::new(options.seed, limits(options)).script().iter().map(|line| text::of_line(line) + "\n").collect()
}

/// Random scripts, one seed after the other.
pub fn random(options: &Options) -> Result<String, String> {
    let started = Instant::now();
    let mut tally = Tally::default();
    let mut seed = options.seed;
    while started.elapsed() < options.time && tally.calls < options.calls {
        let scripts: Vec<Line> = (seed..seed + BATCH).flat_map(|seed| Generator::new(seed, limits(options)).script()).collect();
        if compare(options, &scripts, &mut tally).is_err() {
            return Err(format!("seeds {seed} to {}, after {}\n{}", seed + BATCH - 1, figures(&tally), report(options, &scripts)));
        }
        seed += BATCH;
    }
    Ok(format!("{}; seeds {} to {}, {} s", figures(&tally), options.seed, seed - 1, started.elapsed().as_secs()))
}

/// The scripts of tests/cases: the meaning gives the answers that were written beside them, and the program is judged by the meaning.
pub fn cases(options: &Options) -> Result<String, String> {
    let folder = options.root.join("tests/cases");
    let mut names: Vec<_> = std::fs::read_dir(&folder).map_err(|e| e.to_string())?.flatten().map(|entry| entry.path()).filter(|path| path.extension().is_some_and(|e| e == "script")).collect();
    names.sort();
    let mut tally = Tally::default();
    for path in &names {
        let bytes = std::fs::read(path).map_err(|e| e.to_string())?;
        let script = bytes.split(|b| *b == b'\n').map(text::parse).collect::<Option<Vec<Line>>>().ok_or(format!("{}: a line that is unknown", path.display()))?;
        let script: Vec<Line> = script.into_iter().filter(|line| *line != Line::Nothing).collect();
        let expected = std::fs::read_to_string(path.with_extension("answers")).map_err(|e| format!("{}: {e}", path.display()))?;
        let all = reference::built::Built::parse("all").expect("a known word");
        let said = play(&all, &script);
        if let Some((i, (said, wanted))) = said.lines().zip(expected.lines()).enumerate().find(|(_, (a, b))| a != b) {
            return Err(format!("{}: answer {} of the meaning is {said}, and should be {wanted}", path.display(), i + 1));
        }
        if said.lines().count() != expected.lines().count() {
            return Err(format!("{}: the meaning gives {} answers, and should give {}", path.display(), said.lines().count(), expected.lines().count()));
        }
        compare(options, &script, &mut tally).map_err(|d| format!("{}: line {}: {}", path.display(), d.line, d.why))?;
    }
    Ok(figures(&tally))
}
