//! What the command line asks for.

use crate::subject::Subject;
use reference::built::Built;
use std::path::PathBuf;
use std::time::Duration;

pub const USAGE: &str = "\
usage: tests/differential [all|cases|random|exhaustive|host|planted|script] [WORDS..]
  planted         plants the mistakes of tests/planted in a copy of the reference: all are to be found
  script          prints the random script of a seed
  --seconds N     how long each of random and host goes on (20)
  --calls N       or until so many calls were played
  --seed S        the first seed (1)
  --lines N       about how many lines a script has (200)
  --length K      exhaustive: lists of up to K calls (2)
  --cut-seeds N   exhaustive: so many seeds for each cut (3)
  --built CALLS   sync, core, all, or calls with commas between them (what tests/built says)
  --program CMD   the program under test (crates/rehearse/out/rehearse)
  --no-cuts       random scripts without cuts
  --only NAME     planted: that mistake alone";

#[derive(Clone, Copy, PartialEq, Eq)]
pub enum Mode {
    All,
    Cases,
    Random,
    Exhaustive,
    Host,
    Planted,
    Script,
}

pub struct Options {
    pub mode: Mode,
    /// The root of the repository.
    pub root: PathBuf,
    pub time: Duration,
    pub calls: u64,
    pub seed: u64,
    pub lines: u64,
    pub length: usize,
    pub cut_seeds: u64,
    pub built: Built,
    pub subject: Subject,
    pub cuts: bool,
    pub only: Option<String>,
}

impl Options {
    pub fn parse(mut words: impl Iterator<Item = String>) -> Result<Options, String> {
        let root = PathBuf::from(std::env::var("RATSUMBE_ROOT").unwrap_or(".".to_string()));
        let mut built = std::fs::read_to_string(root.join("tests/built")).map_err(|e| format!("tests/built: {e}"))?.trim().to_string();
        let mut program = root.join("crates/rehearse/out/rehearse").to_string_lossy().into_owned();
        let mut options = Options {
            mode: Mode::All,
            root,
            time: Duration::from_secs(20),
            calls: u64::MAX,
            seed: 1,
            lines: 200,
            length: 2,
            cut_seeds: 3,
            built: Built::parse("all").expect("a known word"),
            subject: Subject::new(""),
            cuts: true,
            only: None,
        };
        while let Some(word) = words.next() {
            let mut value = || words.next().ok_or(format!("{word} wants a value"));
            let number = |text: String| text.parse::<u64>().map_err(|_| format!("{text} is no number"));
            match word.as_str() {
                "all" => options.mode = Mode::All,
                "cases" => options.mode = Mode::Cases,
                "random" => options.mode = Mode::Random,
                "exhaustive" => options.mode = Mode::Exhaustive,
                "host" => options.mode = Mode::Host,
                "planted" => options.mode = Mode::Planted,
                "script" => options.mode = Mode::Script,
                "--seconds" => options.time = Duration::from_secs(number(value()?)?),
                "--calls" => {
                    options.calls = number(value()?)?;
                    options.time = Duration::from_secs(1 << 30);
                }
                "--seed" => options.seed = number(value()?)?,
                "--lines" => options.lines = number(value()?)?.max(8),
                "--length" => options.length = number(value()?)? as usize,
                "--cut-seeds" => options.cut_seeds = number(value()?)?,
                "--built" => built = value()?,
                "--program" => program = value()?,
                "--only" => options.only = Some(value()?),
                "--no-cuts" => options.cuts = false,
                _ => return Err(format!("unknown word {word}")),
            }
        }
        options.built = Built::parse(&built).ok_or(format!("unknown calls {built}"))?;
        options.subject = Subject::new(&program);
        Ok(options)
    }
}
