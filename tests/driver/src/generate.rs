//! Random scripts from a seed. The meaning runs along, without cuts, so that most calls are about what is there.

use crate::random::Random;
use reference::calls::{Call, State, Way};
use reference::text::Line;
use reference::tree::{Tree, TOP};
use reference::walk::{self, Place};

/// What a script is mostly about.
#[derive(Clone, Copy, PartialEq, Eq, Debug)]
pub enum Theme {
    Mixed,
    Names,
    Links,
    Bytes,
    Handles,
    /// Long names and deep folders.
    Long,
    /// A small card that fills up.
    Room,
}

const THEMES: [Theme; 7] = [Theme::Mixed, Theme::Names, Theme::Links, Theme::Bytes, Theme::Handles, Theme::Long, Theme::Room];

/// In the order of `Generator::call`: open, close, read, write, resize, stat, statopen, makefolder, remove, removefolder, next, rename, join, makelink, readlink, sync, list.
fn weights(theme: Theme) -> [u64; 17] {
    match theme {
        Theme::Mixed => [16, 6, 6, 10, 5, 6, 3, 8, 5, 4, 4, 8, 4, 5, 3, 3, 1],
        Theme::Names => [14, 8, 1, 2, 1, 8, 2, 14, 10, 8, 5, 18, 8, 4, 2, 3, 2],
        Theme::Links => [14, 6, 1, 2, 1, 10, 2, 8, 5, 3, 2, 10, 5, 18, 8, 2, 1],
        Theme::Bytes => [10, 4, 16, 30, 14, 2, 4, 2, 2, 1, 1, 2, 1, 1, 1, 5, 0],
        Theme::Handles => [60, 5, 5, 8, 4, 3, 8, 6, 10, 5, 8, 8, 3, 3, 1, 2, 2],
        Theme::Long => [14, 6, 2, 3, 1, 10, 2, 16, 4, 4, 4, 14, 5, 10, 5, 3, 2],
        Theme::Room => [20, 8, 4, 16, 24, 2, 2, 6, 8, 2, 1, 4, 2, 2, 1, 6, 0],
    }
}

/// What a handle is wanted for.
#[derive(Clone, Copy)]
enum Use {
    Read,
    Write,
    List,
}

/// What a script may have.
#[derive(Clone, Copy)]
pub struct Limits {
    /// How many lines, about.
    pub lines: u64,
    pub cuts: bool,
    /// The furthest that a file may reach.
    pub furthest: u64,
    /// So many links are followed by who plays it.
    pub most_links: u64,
}

pub struct Generator {
    random: Random,
    theme: Theme,
    names: Vec<Vec<u8>>,
    state: State,
    limits: Limits,
    /// Lines that were thought of together, the next one last.
    waiting: Vec<Line>,
    /// After a line of `cut`: in so many lines the tree is looked at.
    until_tree: Option<u64>,
}

fn long_name(random: &mut Random, length: usize) -> Vec<u8> {
    let first = b'p' + random.below(3) as u8;
    (0..length).map(|i| if i == 0 { first } else { b'a' + (i % 26) as u8 }).collect()
}

fn name_pool(random: &mut Random, theme: Theme) -> Vec<Vec<u8>> {
    let mut names: Vec<Vec<u8>> = [&b"a"[..], b"b", b"c", b"d", b"e"].iter().map(|name| name.to_vec()).collect();
    match theme {
        Theme::Long => {
            for length in [255, 254, 200, 128, 100] {
                names.push(long_name(random, length));
            }
        }
        Theme::Room => names.extend((0..40).map(|i| format!("f{i}").into_bytes())),
        Theme::Names if random.once_in(2) => names.extend((0..60).map(|i| format!("n{}", i * 7 % 60).into_bytes())),
        _ => {}
    }
    for odd in [&b"a b"[..], b"\xff\xfe", b"a\\", b"...", b"ab", b"a!", b"\x01", b".a", b"~"] {
        if random.once_in(3) {
            names.push(odd.to_vec());
        }
    }
    names
}

impl Generator {
    pub fn new(seed: u64, limits: Limits) -> Generator {
        let mut random = Random::new(seed);
        let theme = *random.pick(&THEMES);
        let names = name_pool(&mut random, theme);
        Generator { random, theme, names, state: State::fresh(Tree::blank()), limits, waiting: Vec::new(), until_tree: None }
    }

    /// A whole script, the size of the card first.
    pub fn script(mut self) -> Vec<Line> {
        let mut script = vec![Line::Card(self.sectors())];
        let lines = self.random.from(self.limits.lines / 4..self.limits.lines * 2);
        for _ in 0..lines {
            let line = self.line();
            script.push(line);
        }
        script.push(Line::Tree);
        script
    }

    fn sectors(&mut self) -> u64 {
        match self.theme {
            Theme::Room => 8192 + self.random.below(3) * self.random.below(9),
            _ => match self.random.below(8) {
                0 => 8192 + self.random.below(64),
                1 => self.random.from(8192..20000),
                2 => 32768,
                _ => 8192,
            },
        }
    }

    fn line(&mut self) -> Line {
        if self.until_tree == Some(0) {
            // as if power had failed since
            self.until_tree = None;
            self.state = State::fresh(self.state.synced().swept());
            return Line::Tree;
        }
        self.until_tree = self.until_tree.map(|lines| lines - 1);
        if self.limits.cuts && self.random.once_in(30) {
            let most = *self.random.pick(&[2, 6, 20, 60, 300]);
            let askings = self.random.below(most);
            self.until_tree = Some(1 + self.random.below(most.min(20)));
            return Line::Cut { askings, seed: self.random.below(1 << 32) };
        }
        if self.limits.cuts && self.random.once_in(20) {
            return self.along(Line::Ask(Call::Sync));
        }
        if self.random.once_in(60) {
            return Line::Tree;
        }
        if self.random.once_in(60) {
            return Line::Count;
        }
        if self.waiting.is_empty() && self.random.once_in(40) {
            self.waiting = match self.theme {
                Theme::Links => self.chain(),
                Theme::Long => self.deep(),
                _ => Vec::new(),
            };
        }
        if let Some(line) = self.waiting.pop() {
            return self.along(line);
        }
        let which = self.random.weighed(&weights(self.theme));
        if which == 16 {
            return Line::List { handle: self.handle() };
        }
        let call = self.call(which);
        self.along(Line::Ask(call))
    }

    /// The meaning makes the call too.
    fn along(&mut self, line: Line) -> Line {
        if let Line::Ask(call) = &line {
            self.state.call(call);
        }
        line
    }

    /// Folders so deep that no path leads there, but for one through a link.
    fn deep(&mut self) -> Vec<Line> {
        let name = |first: u8| [vec![first], vec![b'v'; 254]].concat();
        let path = |names: &[&[u8]]| names.iter().flat_map(|name| [b"/", *name].concat()).collect::<Vec<u8>>();
        let (a, b, c) = (name(b'A'), name(b'B'), name(b'C'));
        let inner = path(&[b"t", &a, &b]);
        let outer = path(&[&a, &b, &c]);
        let mut calls = vec![
            Call::MakeFolder { path: path(&[b"t"]) },
            Call::MakeFolder { path: path(&[b"t", &a]) },
            Call::MakeFolder { path: inner.clone() },
            Call::Open { way: Way::May, write: true, path: [&inner[..], b"/f"].concat() },
            Call::MakeFolder { path: path(&[&a]) },
            Call::MakeFolder { path: path(&[&a, &b]) },
            Call::MakeFolder { path: outer.clone() },
            Call::Rename { old: path(&[b"t"]), new: [&outer[..], b"/t"].concat() },
            Call::MakeLink { to: [&outer[..], b"/t"].concat(), path: path(&[b"up"]) },
        ];
        let through = [&path(&[b"up", &a, &b])[..], b"/f"].concat();
        calls.push(Call::Stat { path: through.clone() });
        calls.push(Call::Open { way: Way::Old, write: false, path: [&outer[..], b"/t/", &a, b"/", &b].concat() });
        calls.push(match self.random.below(3) {
            0 => Call::Rename { old: path(&[b"up", &a]), new: path(&[b"t"]) },
            1 => Call::Rename { old: path(&[&a]), new: path(&[b"up", &a, &b, b"w"]) },
            _ => Call::Remove { path: through },
        });
        let mut lines: Vec<Line> = calls.into_iter().map(Line::Ask).collect();
        lines.push(Line::Tree);
        lines.reverse();
        lines
    }

    /// About as many links one after another as are followed: from one to the next, or in one path.
    fn chain(&mut self) -> Vec<Line> {
        let around = *self.random.pick(&[walk::MOST_LINKS as u64, self.limits.most_links]);
        let length = self.random.from(around - 1..around + 3);
        let mut calls = Vec::new();
        let name = |i: u64| format!("k{i}").into_bytes();
        let first = match self.random.once_in(2) {
            true => {
                calls.extend((0..length).map(|i| Call::MakeLink { to: name(i + 1), path: [b"/".to_vec(), name(i)].concat() }));
                if !self.random.once_in(3) {
                    calls.push(Call::Open { way: Way::May, write: true, path: name(length) });
                }
                b"/k0".to_vec()
            }
            false => {
                calls.push(Call::MakeLink { to: b".".to_vec(), path: b"/s".to_vec() });
                [b"/s".repeat(length as usize), b"/x".to_vec()].concat()
            }
        };
        let after = [&first[..], b"/y"].concat();
        calls.push(Call::Open { way: Way::Old, write: false, path: first.clone() });
        calls.push(Call::Stat { path: after });
        calls.push(Call::Open { way: Way::May, write: true, path: first });
        calls.into_iter().rev().map(Line::Ask).collect()
    }

    pub fn call(&mut self, which: usize) -> Call {
        match which {
            0 => self.open(),
            1 => Call::Close { handle: self.handle() },
            2 => {
                let handle = self.handle_to(Use::Read);
                Call::Read { handle, from: self.spot(handle), most: self.count() }
            }
            3 => self.write(),
            4 => {
                let handle = self.handle_to(Use::Write);
                Call::Resize { handle, size: self.size(handle) }
            }
            5 => Call::Stat { path: self.path() },
            6 => Call::StatOpen { handle: self.handle() },
            7 => Call::MakeFolder { path: self.new_path() },
            8 => Call::Remove { path: self.path_of(false) },
            9 => Call::RemoveFolder { path: self.path_of(true) },
            10 => Call::NextName { handle: self.handle_to(Use::List), after: self.after() },
            11 => Call::Rename { old: self.path(), new: self.either_path() },
            12 => Call::Join { old: self.path_of(false), new: self.new_path() },
            13 => Call::MakeLink { to: self.target(), path: self.new_path() },
            14 => Call::ReadLink { path: self.path() },
            _ => Call::Sync,
        }
    }

    fn open(&mut self) -> Call {
        let way = *self.random.pick(&[Way::Old, Way::May, Way::May, Way::New]);
        let write = !self.random.once_in(3);
        let path = match way {
            Way::Old => self.path(),
            Way::May => self.either_path(),
            Way::New => self.new_path(),
        };
        // folders are opened to read
        let write = write && !(way == Way::Old && self.random.once_in(2));
        Call::Open { way, write, path }
    }

    /// A handle, mostly one that is open.
    fn handle(&mut self) -> u64 {
        if self.random.once_in(12) {
            return self.random.below(67);
        }
        let open: Vec<u64> = (0..64).filter(|handle| self.state.node_of(*handle).is_some()).collect();
        match open.is_empty() {
            true => 0,
            false => *self.random.pick(&open),
        }
    }

    fn can(&self, handle: u64, wanted: Use) -> bool {
        let is_folder = self.state.node_of(handle).is_some_and(|node| self.state.now.node(node).is_folder());
        match wanted {
            Use::Read => !is_folder,
            Use::Write => self.state.may_write(handle),
            Use::List => is_folder,
        }
    }

    /// A handle, mostly one that can be used so.
    fn handle_to(&mut self, wanted: Use) -> u64 {
        for _ in 0..6 {
            let handle = self.handle();
            if self.can(handle, wanted) {
                return handle;
            }
        }
        self.handle()
    }

    /// The path of something, mostly of a folder or not of one.
    fn path_of(&mut self, folder: bool) -> Vec<u8> {
        for _ in 0..4 {
            let path = self.path();
            if let Place::There { node, .. } = self.state.place(&path, false) {
                if node != TOP && self.state.now.node(node).is_folder() == folder {
                    return path;
                }
            }
        }
        self.path()
    }

    fn size_of(&self, handle: u64) -> u64 {
        match self.state.node_of(handle).map(|node| &self.state.now.node(node).body) {
            Some(reference::tree::Body::File(bytes)) => bytes.len(),
            _ => 0,
        }
    }

    /// A place in a file: its edges, the edges of blocks, anywhere, and far out.
    fn spot(&mut self, handle: u64) -> u64 {
        let size = self.size_of(handle);
        let block = 4096 * self.random.below(size / 4096 + 3);
        let spot = match self.random.below(12) {
            0..=2 => 0,
            3 | 4 => size,
            5 => size.saturating_sub(1),
            6 => size + 1,
            7 => block,
            8 => (block + self.random.below(3)).saturating_sub(1),
            9 => self.random.below(size + 100),
            10 => self.random.below(size + 20000),
            _ if self.random.once_in(4) => self.random.below(self.limits.furthest),
            _ => self.random.below(300_000),
        };
        if self.random.once_in(200) {
            return *self.random.pick(&[u64::MAX, (1 << 32) - 1, 1 << 32, 1 << 63]);
        }
        spot.min(self.limits.furthest)
    }

    fn size(&mut self, handle: u64) -> u64 {
        if self.theme == Theme::Room {
            return self.random.below(600_000);
        }
        self.spot(handle)
    }

    fn count(&mut self) -> u64 {
        match self.random.below(12) {
            0 => 0,
            1 => 4096,
            2 => 65536,
            3 => 65535 + self.random.below(3),
            _ => self.random.below(200),
        }
    }

    fn write(&mut self) -> Call {
        let handle = self.handle_to(Use::Write);
        let length = match self.random.below(40) {
            0 | 1 => 0,
            2..=4 => self.random.from(4095..4098),
            5..=9 => self.random.below(9000),
            10 => self.random.from(60000..65536),
            11 => 65535 + self.random.below(3),
            12..=16 if self.theme == Theme::Room => 65536,
            _ => self.random.from(1..40),
        };
        let first = self.random.next();
        let bytes = (0..length).map(|i| (first >> (8 * (i % 7))) as u8 ^ (i / 7) as u8).collect();
        Call::Write { handle, from: self.spot(handle), bytes }
    }

    fn name(&mut self) -> Vec<u8> {
        let few = self.names.len().min(4) as u64;
        let upto = if self.random.once_in(2) { few } else { self.names.len() as u64 };
        self.names[self.random.below(upto) as usize].clone()
    }

    fn after(&mut self) -> Vec<u8> {
        match self.random.below(8) {
            0..=2 => Vec::new(),
            3 => vec![0],
            4 if self.random.once_in(4) => vec![b'z'; 256],
            4 => b"a/".to_vec(),
            _ => self.name(),
        }
    }

    /// The path of something that is there, by a walk down.
    fn there(&mut self) -> Vec<u8> {
        let mut path = Vec::new();
        let mut at = TOP;
        while let Some(folder) = self.state.now.folder(at) {
            if folder.entries.is_empty() || (at != TOP && self.random.once_in(3)) || self.random.once_in(60) {
                break;
            }
            let (name, node) = folder.entries.iter().nth(self.random.below(folder.entries.len() as u64) as usize).expect("an index below the length");
            path.push(b'/');
            path.extend_from_slice(name);
            at = *node;
        }
        if path.is_empty() {
            path.push(b'/');
        }
        path
    }

    /// A folder that is there, and a name that may be in it.
    fn in_folder(&mut self) -> Vec<u8> {
        let mut path = Vec::new();
        let mut at = TOP;
        loop {
            let folder = self.state.now.folder(at).expect("a walk goes through folders");
            let below: Vec<_> = folder.entries.iter().filter(|(_, node)| self.state.now.node(**node).is_folder()).map(|(name, node)| (name.clone(), *node)).collect();
            if below.is_empty() || self.random.once_in(if self.theme == Theme::Long { 5 } else { 2 }) {
                break;
            }
            let (name, node) = self.random.pick(&below).clone();
            path.push(b'/');
            path.extend_from_slice(&name);
            at = node;
        }
        path.push(b'/');
        path.extend(self.name());
        path
    }

    fn any(&mut self) -> Vec<u8> {
        let depth = if self.random.once_in(6) { self.random.from(3..9) } else { self.random.from(1..3) };
        let mut path = Vec::new();
        for i in 0..depth {
            if i > 0 || !self.random.once_in(5) {
                path.push(b'/');
            }
            path.extend(self.name());
        }
        path
    }

    /// Strokes beside each other, dots, steps back and forth.
    fn decorated(&mut self, path: Vec<u8>) -> Vec<u8> {
        let mut out = Vec::new();
        if self.random.once_in(6) {
            out.extend_from_slice(b"..");
        }
        for b in path {
            out.push(b);
            if b == b'/' {
                match self.random.below(8) {
                    0 => out.push(b'/'),
                    1 => out.extend_from_slice(b"./"),
                    2 => {
                        out.extend(self.name());
                        out.extend_from_slice(b"/../");
                    }
                    3 => out.extend_from_slice(b"../"),
                    _ => {}
                }
            }
        }
        match self.random.below(8) {
            0 => out.push(b'/'),
            1 => out.extend_from_slice(b"/."),
            2 => out.extend_from_slice(b"/.."),
            3 => out.extend_from_slice(b"/../"),
            _ => {}
        }
        out
    }

    fn odd(&mut self) -> Vec<u8> {
        match self.random.below(12) {
            0 => Vec::new(),
            1 => b"/".to_vec(),
            2 => b".".to_vec(),
            3 => b"..".to_vec(),
            4 => b"//.//".to_vec(),
            5 => b"a\0b".to_vec(),
            6 => vec![b'q'; 256],
            7 => [b"a/".repeat(512), b"a".to_vec()].concat(),
            8 => b"./".repeat(512),
            9 => vec![b'/'; 1024],
            10 => [vec![b'/'; 1000], b"a".to_vec()].concat(),
            _ => [self.there(), b"/x".to_vec()].concat(),
        }
    }

    /// Mostly of something that is there.
    fn path(&mut self) -> Vec<u8> {
        let path = match self.random.below(10) {
            0..=5 => self.there(),
            6 => self.in_folder(),
            _ => self.any(),
        };
        self.maybe_odd(path)
    }

    /// Mostly of something that is missing in a folder that is there.
    fn new_path(&mut self) -> Vec<u8> {
        let path = match self.random.below(10) {
            0..=6 => self.in_folder(),
            7 => self.there(),
            _ => self.any(),
        };
        self.maybe_odd(path)
    }

    fn either_path(&mut self) -> Vec<u8> {
        match self.random.once_in(2) {
            true => self.path(),
            false => self.new_path(),
        }
    }

    fn maybe_odd(&mut self, path: Vec<u8>) -> Vec<u8> {
        match self.random.below(40) {
            0 => self.odd(),
            1..=4 => self.decorated(path),
            _ => path,
        }
    }

    /// Where a link leads: something that is there, nowhere, or round in a circle.
    fn target(&mut self) -> Vec<u8> {
        match self.random.below(10) {
            0..=3 => self.there(),
            4..=6 => self.name(),
            7 => [b"../".to_vec(), self.name()].concat(),
            8 => self.any(),
            _ => self.either_path(),
        }
    }
}
