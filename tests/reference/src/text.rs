//! The lines of scripts and of answers.

use crate::calls::{Call, Kind, Reply, Way};

/// What a line of a script is about.
#[derive(Clone, PartialEq, Eq, Debug)]
pub enum Line {
    Nothing,
    /// A blank card of so many sectors.
    Card(u64),
    /// Power fails after so many further askings; the seed chooses what is left.
    Cut { askings: u64, seed: u64 },
    Ask(Call),
    List { handle: u64 },
    Tree,
    Count,
}

fn hex_digit(b: u8) -> Option<u8> {
    (b as char).to_digit(16).map(|d| d as u8)
}

fn hex(word: &[u8]) -> Option<Vec<u8>> {
    if word.len() % 2 == 1 {
        return None;
    }
    word.chunks(2).map(|pair| Some(hex_digit(pair[0])? * 16 + hex_digit(pair[1])?)).collect()
}

fn path(word: &[u8]) -> Option<Vec<u8>> {
    if word == b"\\." {
        return Some(Vec::new());
    }
    let mut out = Vec::new();
    let mut at = 0;
    while at < word.len() {
        if word[at] == b'\\' {
            out.push(hex_digit(*word.get(at + 1)?)? * 16 + hex_digit(*word.get(at + 2)?)?);
            at += 3;
        } else if word[at] > 32 {
            out.push(word[at]);
            at += 1;
        } else {
            return None;
        }
    }
    Some(out)
}

fn number(word: &[u8]) -> Option<u64> {
    if word.is_empty() || !word.iter().all(u8::is_ascii_digit) {
        return None;
    }
    std::str::from_utf8(word).ok()?.parse().ok()
}

/// Reads a line; none is one that asks for nothing that is known.
pub fn parse(line: &[u8]) -> Option<Line> {
    let line = line.strip_suffix(b"\r").unwrap_or(line);
    let words: Vec<&[u8]> = line.split(|b| *b == b' ').filter(|word| !word.is_empty()).collect();
    let Some((verb, args)) = words.split_first() else {
        return Some(Line::Nothing);
    };
    if verb[0] == b'#' {
        return Some(Line::Nothing);
    }
    let verb = std::str::from_utf8(verb).ok()?;
    let call = match (verb, args) {
        ("open", [way, access, p]) => Call::Open {
            way: match *way {
                b"old" => Way::Old,
                b"may" => Way::May,
                b"new" => Way::New,
                _ => return None,
            },
            write: match *access {
                b"read" => false,
                b"write" => true,
                _ => return None,
            },
            path: path(p)?,
        },
        ("close", [h]) => Call::Close { handle: number(h)? },
        ("read", [h, from, most]) => Call::Read { handle: number(h)?, from: number(from)?, most: number(most)? },
        ("write", [h, from]) => Call::Write { handle: number(h)?, from: number(from)?, bytes: Vec::new() },
        ("write", [h, from, bytes]) => Call::Write { handle: number(h)?, from: number(from)?, bytes: hex(bytes)? },
        ("resize", [h, size]) => Call::Resize { handle: number(h)?, size: number(size)? },
        ("stat", [p]) => Call::Stat { path: path(p)? },
        ("statopen", [h]) => Call::StatOpen { handle: number(h)? },
        ("makefolder", [p]) => Call::MakeFolder { path: path(p)? },
        ("remove", [p]) => Call::Remove { path: path(p)? },
        ("removefolder", [p]) => Call::RemoveFolder { path: path(p)? },
        ("next", [h]) => Call::NextName { handle: number(h)?, after: Vec::new() },
        ("next", [h, after]) => Call::NextName { handle: number(h)?, after: path(after)? },
        ("rename", [old, new]) => Call::Rename { old: path(old)?, new: path(new)? },
        ("join", [old, new]) => Call::Join { old: path(old)?, new: path(new)? },
        ("makelink", [to, p]) => Call::MakeLink { to: path(to)?, path: path(p)? },
        ("readlink", [p]) => Call::ReadLink { path: path(p)? },
        ("sync", []) => Call::Sync,
        ("list", [h]) => return Some(Line::List { handle: number(h)? }),
        ("cut", [askings, seed]) => return Some(Line::Cut { askings: number(askings)?, seed: number(seed)? }),
        ("tree", []) => return Some(Line::Tree),
        ("count", []) => return Some(Line::Count),
        (size, []) => return Some(Line::Card(number(size.as_bytes())?)),
        _ => return None,
    };
    Some(Line::Ask(call))
}

/// A name or a path, as it is typed and printed.
pub fn of_path(path: &[u8]) -> String {
    if path.is_empty() {
        return "\\.".to_string();
    }
    let mut text = String::new();
    for b in path {
        match b {
            b'\\' => text.push_str("\\5c"),
            33..=126 => text.push(*b as char),
            _ => text.push_str(&format!("\\{b:02x}")),
        }
    }
    text
}

pub fn of_bytes(bytes: &[u8]) -> String {
    const DIGITS: &[u8; 16] = b"0123456789abcdef";
    let mut text = String::with_capacity(2 * bytes.len());
    for b in bytes {
        text.push(DIGITS[usize::from(b >> 4)] as char);
        text.push(DIGITS[usize::from(b & 15)] as char);
    }
    text
}

pub fn of_reply(reply: &Reply) -> String {
    match reply {
        Reply::No(number) => format!("no {number}"),
        Reply::Done => "done".to_string(),
        Reply::Full => "full".to_string(),
        Reply::Handle(handle) => format!("handle {handle}"),
        Reply::Bytes(bytes) => of_bytes(bytes),
        Reply::Named(name) => of_path(name),
        Reply::Path(path) => of_path(path),
        Reply::Told { kind, number, size, names } => {
            let kind = match kind {
                Kind::File => "file",
                Kind::Folder => "folder",
                Kind::Link => "link",
            };
            format!("{kind} {number} {size} {names}")
        }
    }
}

/// A line of a script, as it is typed.
pub fn of_line(line: &Line) -> String {
    match line {
        Line::Nothing => String::new(),
        Line::Card(sectors) => sectors.to_string(),
        Line::Cut { askings, seed } => format!("cut {askings} {seed}"),
        Line::List { handle } => format!("list {handle}"),
        Line::Tree => "tree".to_string(),
        Line::Count => "count".to_string(),
        Line::Ask(call) => of_call(call),
    }
}

fn of_call(call: &Call) -> String {
    match call {
        Call::Open { way, write, path } => {
            let way = match way {
                Way::Old => "old",
                Way::May => "may",
                Way::New => "new",
            };
            format!("open {way} {} {}", if *write { "write" } else { "read" }, of_path(path))
        }
        Call::Close { handle } => format!("close {handle}"),
        Call::Read { handle, from, most } => format!("read {handle} {from} {most}"),
        Call::Write { handle, from, bytes } => format!("write {handle} {from} {}", of_bytes(bytes)),
        Call::Resize { handle, size } => format!("resize {handle} {size}"),
        Call::Stat { path } => format!("stat {}", of_path(path)),
        Call::StatOpen { handle } => format!("statopen {handle}"),
        Call::MakeFolder { path } => format!("makefolder {}", of_path(path)),
        Call::Remove { path } => format!("remove {}", of_path(path)),
        Call::RemoveFolder { path } => format!("removefolder {}", of_path(path)),
        Call::NextName { handle, after } => format!("next {handle} {}", of_path(after)),
        Call::Rename { old, new } => format!("rename {} {}", of_path(old), of_path(new)),
        Call::Join { old, new } => format!("join {} {}", of_path(old), of_path(new)),
        Call::MakeLink { to, path } => format!("makelink {} {}", of_path(to), of_path(path)),
        Call::ReadLink { path } => format!("readlink {}", of_path(path)),
        Call::Sync => "sync".to_string(),
    }
}
