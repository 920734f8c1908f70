//! Plays scripts through the program under test, the meaning and the host's own file calls, and compares. tests/README.md says what is compared, and how to run it longer.

mod exhaustive;
mod generate;
mod host;
mod hosted;
mod options;
mod planted;
mod random;
mod scripts;
mod shrink;
mod subject;

use options::{Mode, Options};
use std::process::ExitCode;

/// Each part that ran, and whether it found a difference.
struct Part {
    name: &'static str,
    found: Result<String, String>,
}

fn run(options: &Options) -> Vec<Part> {
    let mut parts = Vec::new();
    let mut part = |mode: Mode, name: &'static str, run: &dyn Fn() -> Result<String, String>| {
        if options.mode == Mode::All || options.mode == mode {
            let found = run();
            match &found {
                Ok(said) => println!("{name}: {said}"),
                Err(said) => println!("{name}: DIFFERENCE\n{said}"),
            }
            parts.push(Part { name, found });
        }
    };
    part(Mode::Cases, "cases", &|| scripts::cases(options));
    part(Mode::Random, "random scripts", &|| scripts::random(options));
    part(Mode::Exhaustive, "all short lists", &|| exhaustive::run(options));
    part(Mode::Host, "host", &|| hosted::run(options));
    if options.mode == Mode::Planted {
        part(Mode::Planted, "planted mistakes", &|| planted::run(options));
    }
    parts
}

fn main() -> ExitCode {
    let options = match Options::parse(std::env::args().skip(1)) {
        Ok(options) => options,
        Err(why) => {
            eprintln!("differential: {why}\n{}", options::USAGE);
            return ExitCode::from(2);
        }
    };
    if options.mode == Mode::Script {
        print!("{}", scripts::of_seed(&options));
        return ExitCode::SUCCESS;
    }
    let parts = run(&options);
    let failed = parts.iter().filter(|part| part.found.is_err()).map(|part| part.name).collect::<Vec<_>>();
    println!("{} passed, {} failed", parts.len() - failed.len(), failed.len());
    match failed.is_empty() {
        true => ExitCode::SUCCESS,
        false => ExitCode::FAILURE,
    }
}
