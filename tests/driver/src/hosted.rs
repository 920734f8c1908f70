//! Random scripts without cuts, played by the meaning and by the host's own file calls in a temporary folder.

use crate::generate::{Generator, Limits};
use crate::host::{Apart, Host, HOST_LINKS};
use crate::options::Options;
use crate::scripts::shown;
use crate::shrink::shrink;
use reference::calls::Call;
use reference::text::Line;
use std::collections::BTreeMap;
use std::fs;
use std::path::{Path, PathBuf};
use std::process::Command;
use std::time::Instant;

/// Set for the run that has the folder as its topmost one.
const INSIDE: &str = "RATSUMBE_INSIDE";

#[derive(Default)]
struct Tally {
    scripts: u64,
    calls: u64,
    nodes: u64,
    apart: BTreeMap<Apart, u64>,
}

/// What only a topmost folder of one's own can show: steps above it, and links that begin at it.
fn leaves_root(call: &Call) -> bool {
    let steps = |path: &[u8]| reference::walk::pieces(path).contains(&&b".."[..]);
    match call {
        Call::Open { path, .. } | Call::Stat { path } | Call::MakeFolder { path } | Call::Remove { path } | Call::RemoveFolder { path } | Call::ReadLink { path } => steps(path),
        Call::Rename { old, new } | Call::Join { old, new } => steps(old) || steps(new),
        Call::MakeLink { to, path } => steps(to) || steps(path) || to.first() == Some(&b'/'),
        _ => false,
    }
}

/// Plays a script on both.
fn play(root: &Path, is_top: bool, script: &[Line], tally: &mut Tally) -> Result<(), String> {
    Host::clear(root).map_err(|e| format!("{}: {e}", root.display()))?;
    let mut host = Host::new(if is_top { Path::new("") } else { root });
    tally.scripts += 1;
    for (i, line) in script.iter().enumerate() {
        let Line::Ask(call) = line else {
            continue;
        };
        if !is_top && leaves_root(call) {
            continue;
        }
        let at = |why: String| format!("line {}: {why}", i + 1);
        match host.call(call).map_err(at)? {
            Ok(()) => tally.calls += 1,
            Err(apart) => *tally.apart.entry(apart).or_default() += 1,
        }
        if i % 25 == 0 {
            tally.nodes += host.same_tree().map_err(|why| format!("after line {}: {why}", i + 1))?;
        }
    }
    tally.nodes += host.same_tree().map_err(|why| format!("at the end: {why}"))?;
    host.state.now.check();
    Ok(())
}

/// Where TMPDIR says; else in memory, where that can be had.
fn temporary() -> Result<PathBuf, String> {
    let name = format!("ratsumbe-host-{}", std::process::id());
    let in_memory = Path::new("/dev/shm").join(&name);
    if std::env::var_os("TMPDIR").is_none() && fs::create_dir(&in_memory).is_ok() {
        return Ok(in_memory);
    }
    let folder = std::env::temp_dir().join(name);
    fs::create_dir(&folder).map_err(|e| format!("{}: {e}", folder.display()))?;
    Ok(folder)
}

/// Runs this program again in a temporary folder, which it makes its topmost one where it may.
pub fn run(options: &Options) -> Result<String, String> {
    if let Ok(folder) = std::env::var(INSIDE) {
        return inside(options, Path::new(&folder));
    }
    let folder = temporary()?;
    let program = std::env::current_exe().map_err(|e| e.to_string())?;
    let mut args: Vec<String> = std::env::args().skip(1).filter(|word| word != "all").collect();
    args.push("host".to_string());
    let ended = Command::new(program).args(args).env(INSIDE, &folder).output().map_err(|e| e.to_string());
    let _ = fs::remove_dir_all(&folder);
    let ended = ended?;
    let said = String::from_utf8_lossy(&ended.stdout);
    let (body, _) = said.trim_end().rsplit_once('\n').unwrap_or(("", ""));
    let body = body.trim_start_matches("host: ").to_string();
    match ended.status.success() {
        true => Ok(body),
        false => Err(format!("{body}{}", String::from_utf8_lossy(&ended.stderr))),
    }
}

fn inside(options: &Options, folder: &Path) -> Result<String, String> {
    let started = Instant::now();
    let is_top = std::os::unix::fs::chroot(folder).and_then(|()| std::env::set_current_dir("/")).is_ok();
    let root = if is_top { Path::new("/") } else { folder };
    let mut tally = Tally::default();
    let mut seed = options.seed;
    while started.elapsed() < options.time && tally.calls < options.calls {
        let limits = Limits { lines: options.lines, cuts: false, furthest: 1 << 33, most_links: u64::from(HOST_LINKS) };
        let script = Generator::new(seed, limits).script();
        if let Err(why) = play(root, is_top, &script, &mut tally) {
            let differs = |script: &[Line]| play(root, is_top, script, &mut Tally::default()).is_err();
            let short = shrink(script, &differs);
            let why = play(root, is_top, &short, &mut Tally::default()).err().unwrap_or(why);
            return Err(format!("seed {seed}, after {} calls; the shortest script that differs:\n{}{why}", tally.calls, shown(&short)));
        }
        seed += 1;
    }
    let _ = Host::clear(root);
    let apart: Vec<String> = tally.apart.iter().map(|(apart, count)| format!("{apart:?} {count}")).collect();
    let top = if is_top { "" } else { "; no topmost folder of its own, so no `..` and no links from the top" };
    Ok(format!("{} scripts, {} calls compared, {} nodes compared; not compared: {}{top}; seeds {} to {}, {} s", tally.scripts, tally.calls, tally.nodes, apart.join(", "), options.seed, seed - 1, started.elapsed().as_secs()))
}
