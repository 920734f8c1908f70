//! Which calls are built so far; the others are refused by 12.

use crate::calls::Call;

const CORE: [&str; 12] = ["open", "close", "read", "write", "resize", "stat", "statopen", "makefolder", "remove", "removefolder", "next", "sync"];
const LATER: [&str; 4] = ["rename", "join", "makelink", "readlink"];

#[derive(Clone)]
pub struct Built(Vec<&'static str>);

impl Built {
    /// `sync`, `core`, `all`, or verbs with commas between them.
    pub fn parse(text: &str) -> Option<Built> {
        let all = || CORE.iter().chain(&LATER).copied();
        match text {
            "core" => Some(Built(CORE.to_vec())),
            "all" => Some(Built(all().collect())),
            _ => text.split(',').map(|word| all().find(|verb| *verb == word)).collect::<Option<Vec<_>>>().map(Built),
        }
    }

    pub fn has(&self, verb: &str) -> bool {
        self.0.contains(&verb)
    }

    pub fn can(&self, call: &Call) -> bool {
        self.has(verb_of(call))
    }
}

pub fn verb_of(call: &Call) -> &'static str {
    match call {
        Call::Open { .. } => "open",
        Call::Close { .. } => "close",
        Call::Read { .. } => "read",
        Call::Write { .. } => "write",
        Call::Resize { .. } => "resize",
        Call::Stat { .. } => "stat",
        Call::StatOpen { .. } => "statopen",
        Call::MakeFolder { .. } => "makefolder",
        Call::Remove { .. } => "remove",
        Call::RemoveFolder { .. } => "removefolder",
        Call::NextName { .. } => "next",
        Call::Rename { .. } => "rename",
        Call::Join { .. } => "join",
        Call::MakeLink { .. } => "makelink",
        Call::ReadLink { .. } => "readlink",
        Call::Sync => "sync",
    }
}
