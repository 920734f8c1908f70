//! What is shown by several calls one after another: the names of a folder, and all paths.

use crate::built::Built;
use crate::bytes::fnv;
use crate::calls::{Call, Reply, State, MOST_HANDLES};
use crate::text;
use crate::tree::{Body, TOP};
use crate::walk::{MOST_PATH, STROKE};

/// What closes a list: it is no name.
pub const END: &str = ".";

const NOT_BUILT: &str = "no 12";

/// The names of an open folder.
pub fn names(state: &State, built: &Built, handle: u64) -> Vec<String> {
    if !built.has("next") {
        return vec![NOT_BUILT.to_string()];
    }
    let mut lines = Vec::new();
    let mut after = Vec::new();
    loop {
        match state.clone().call(&Call::NextName { handle, after }) {
            Reply::Named(name) => {
                lines.push(text::of_path(&name));
                after = name;
            }
            Reply::No(2) => {
                lines.push(END.to_string());
                return lines;
            }
            other => return vec![text::of_reply(&other)],
        }
    }
}

fn below(folder: &[u8], name: &[u8]) -> Vec<u8> {
    let mut path = if folder == b"/" { Vec::new() } else { folder.to_vec() };
    path.push(STROKE);
    path.extend_from_slice(name);
    path
}

/// Every path with what is told of it, a folder before what is in it, names in their order. It is what a walk by calls shows: one that knows only paths, and opens what it reads.
pub fn paths(state: &State, built: &Built) -> Vec<String> {
    let mut lines = Vec::new();
    let mut left = vec![(b"/".to_vec(), TOP)];
    while let Some((path, number)) = left.pop() {
        let name = text::of_path(&path);
        if !built.has("stat") {
            lines.push(format!("{NOT_BUILT} {name}"));
            continue;
        }
        if path.len() > MOST_PATH {
            lines.push(format!("no 1 {name}"));
            continue;
        }
        let told = text::of_reply(&state.told(number));
        let is_shut = state.open_count() >= MOST_HANDLES;
        let inside = match &state.now.node(number).body {
            Body::Link(_) if !built.has("readlink") => NOT_BUILT.to_string(),
            Body::Link(to) => format!("{:016x}", fnv(to)),
            _ if !built.has("open") => NOT_BUILT.to_string(),
            _ if is_shut => "no 13".to_string(),
            Body::File(_) if !built.has("read") => NOT_BUILT.to_string(),
            Body::File(bytes) => format!("{:016x}", bytes.digest()),
            Body::Folder(_) if !built.has("next") => NOT_BUILT.to_string(),
            Body::Folder(folder) => {
                left.extend(folder.entries.iter().rev().map(|(name, node)| (below(&path, name), *node)));
                "-".to_string()
            }
        };
        lines.push(format!("{told} {inside} {name}"));
    }
    lines.push(END.to_string());
    lines
}
