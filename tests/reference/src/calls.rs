//! Each call: what it answers, and what it leaves.

use crate::bytes::Bytes;
use crate::tree::{Body, Tree, LAST_NUMBER};
use crate::walk::{self, Place};
use std::rc::Rc;

pub const MOST_HANDLES: usize = 64;
pub const MOST_BYTES: u64 = 65536;
pub const MOST_FILE: u64 = 1 << 32;

#[derive(Clone, Copy, PartialEq, Eq, Debug)]
pub enum Way {
    Old,
    May,
    New,
}

#[derive(Clone, PartialEq, Eq, Debug)]
pub enum Call {
    Open { way: Way, write: bool, path: Vec<u8> },
    Close { handle: u64 },
    Read { handle: u64, from: u64, most: u64 },
    Write { handle: u64, from: u64, bytes: Vec<u8> },
    Resize { handle: u64, size: u64 },
    Stat { path: Vec<u8> },
    StatOpen { handle: u64 },
    MakeFolder { path: Vec<u8> },
    Remove { path: Vec<u8> },
    RemoveFolder { path: Vec<u8> },
    NextName { handle: u64, after: Vec<u8> },
    Rename { old: Vec<u8>, new: Vec<u8> },
    Join { old: Vec<u8>, new: Vec<u8> },
    MakeLink { to: Vec<u8>, path: Vec<u8> },
    ReadLink { path: Vec<u8> },
    Sync,
}

#[derive(Clone, Copy, PartialEq, Eq, Debug)]
pub enum Kind {
    File,
    Folder,
    Link,
}

#[derive(Clone, PartialEq, Eq, Debug)]
pub enum Reply {
    No(u8),
    Done,
    Handle(u64),
    Bytes(Vec<u8>),
    /// Kind, number, how long or how many names, and how many names it has itself.
    Told { kind: Kind, number: u64, size: u64, names: u64 },
    Named(Vec<u8>),
    Path(Vec<u8>),
    Full,
}

#[derive(Clone, Copy)]
struct Handle {
    node: u64,
    write: bool,
}

/// The trees since the last sync, the latest first.
#[derive(Clone, Default)]
struct Past(Option<Rc<Before>>);

struct Before {
    tree: Tree,
    earlier: Past,
}

impl Drop for Past {
    fn drop(&mut self) {
        // one after the other, since there may be many
        let mut next = self.0.take();
        while let Some(before) = next {
            match Rc::try_unwrap(before) {
                Ok(mut alone) => next = alone.earlier.0.take(),
                Err(_) => break,
            }
        }
    }
}

/// The tree now, what is open, and what a power cut may leave.
#[derive(Clone)]
pub struct State {
    pub now: Tree,
    handles: Vec<Option<Handle>>,
    synced: Tree,
    /// All trees after the synced one, the one of now among them.
    since: Past,
    most_links: u32,
}

type Answer = Result<Reply, u8>;

impl State {
    /// A tree that is synced, with nothing open.
    pub fn fresh(tree: Tree) -> State {
        State { now: tree.clone(), handles: Vec::new(), synced: tree, since: Past(None), most_links: walk::MOST_LINKS }
    }

    pub fn with_links(mut self, most: u32) -> State {
        self.most_links = most;
        self
    }

    /// Four times the bytes that surely suffice for the tree now beside the synced one.
    fn needed4(&self) -> u128 {
        let (blocks, names) = self.now.weights();
        let (blocks_then, names_then) = self.synced.weights();
        4 * 2_097_152 + 5 * (u128::from(blocks) + u128::from(blocks_then)) + 12 * (u128::from(names) + u128::from(names_then))
    }

    /// Whether full may be answered where a call would lead to this state from one before.
    pub fn may_be_full(&self, before: &State, sectors: u64) -> bool {
        let (blocks, names) = self.now.weights();
        let (blocks_before, names_before) = before.now.weights();
        blocks + names > blocks_before + names_before && self.needed4() > 4 * 512 * u128::from(sectors)
    }

    /// Whether a desk says full that looks at the new tree alone, which is seldomer than it may.
    pub fn is_full_alone(&self, before: &State, sectors: u64) -> bool {
        let (blocks, names) = self.now.weights();
        let alone = 4 * 2_097_152 + 5 * u128::from(blocks) + 12 * u128::from(names);
        self.may_be_full(before, sectors) && alone > 4 * 512 * u128::from(sectors)
    }

    /// Every tree that a power cut may leave.
    pub fn could(&self) -> Vec<Tree> {
        let mut trees = Vec::new();
        let mut at = &self.since;
        while let Some(before) = &at.0 {
            trees.push(before.tree.swept());
            at = &before.earlier;
        }
        trees.push(self.synced.swept());
        trees
    }

    pub fn synced(&self) -> &Tree {
        &self.synced
    }

    pub fn place(&self, path: &[u8], follow: bool) -> Place {
        walk::place(&self.now, path, follow, self.most_links)
    }

    /// Makes a call. What is refused changes nothing.
    pub fn call(&mut self, call: &Call) -> Reply {
        let version = self.now.version();
        let reply = match self.answer(call) {
            Ok(reply) => reply,
            Err(number) => Reply::No(number),
        };
        if self.now.version() != version {
            self.since = Past(Some(Rc::new(Before { tree: self.now.clone(), earlier: std::mem::take(&mut self.since) })));
        }
        reply
    }

    fn answer(&mut self, call: &Call) -> Answer {
        match call {
            Call::Open { way, write, path } => self.open(*way, *write, path),
            Call::Close { handle } => self.close(*handle),
            Call::Read { handle, from, most } => self.read(*handle, *from, *most),
            Call::Write { handle, from, bytes } => self.write(*handle, *from, bytes),
            Call::Resize { handle, size } => self.resize(*handle, *size),
            Call::Stat { path } => Ok(self.told(self.there(path)?)),
            Call::StatOpen { handle } => Ok(self.told(self.opened(*handle)?.node)),
            Call::MakeFolder { path } => self.make_folder(path),
            Call::Remove { path } => self.remove(path),
            Call::RemoveFolder { path } => self.remove_folder(path),
            Call::NextName { handle, after } => self.next_name(*handle, after),
            Call::Rename { old, new } => self.rename(old, new),
            Call::Join { old, new } => self.join(old, new),
            Call::MakeLink { to, path } => self.make_link(to, path),
            Call::ReadLink { path } => self.read_link(path),
            Call::Sync => {
                self.synced = self.now.clone();
                self.since = Past(None);
                Ok(Reply::Done)
            }
        }
    }

    pub fn open_count(&self) -> usize {
        self.handles.iter().flatten().count()
    }

    /// The node of a handle.
    pub fn node_of(&self, handle: u64) -> Option<u64> {
        self.opened(handle).ok().map(|handle| handle.node)
    }

    /// Whether a handle is open to write.
    pub fn may_write(&self, handle: u64) -> bool {
        self.opened(handle).is_ok_and(|handle| handle.write)
    }

    fn opened(&self, handle: u64) -> Result<Handle, u8> {
        let slot = usize::try_from(handle).ok().and_then(|handle| self.handles.get(handle));
        slot.copied().flatten().ok_or(8)
    }

    pub fn is_open(&self, node: u64) -> bool {
        self.handles.iter().flatten().any(|handle| handle.node == node)
    }

    /// The lowest number that is free.
    fn give_handle(&mut self, node: u64, write: bool) -> Reply {
        let lowest = self.handles.iter().position(Option::is_none).unwrap_or(self.handles.len());
        if lowest == self.handles.len() {
            self.handles.push(None);
        }
        self.handles[lowest] = Some(Handle { node, write });
        Reply::Handle(lowest as u64)
    }

    fn sweep(&mut self, node: u64) {
        let is_open = self.is_open(node);
        self.now.sweep(node, is_open);
    }

    fn numbers_left(&self) -> Result<(), u8> {
        if self.now.next_number() >= LAST_NUMBER {
            return Err(10);
        }
        Ok(())
    }

    fn open(&mut self, way: Way, write: bool, path: &[u8]) -> Answer {
        if self.open_count() >= MOST_HANDLES {
            return Err(13);
        }
        self.numbers_left()?;
        let node = match self.place(path, way != Way::New) {
            Place::Wrong(number) => return Err(number),
            Place::Missing { .. } if way == Way::Old => return Err(2),
            Place::Missing { folder, name } => self.now.add(folder, &name, Body::File(Bytes::default())),
            Place::There { .. } if way == Way::New => return Err(5),
            Place::There { node, .. } => {
                if self.now.node(node).is_folder() && (write || way == Way::May) {
                    return Err(4);
                }
                node
            }
        };
        Ok(self.give_handle(node, write))
    }

    fn close(&mut self, handle: u64) -> Answer {
        let node = self.opened(handle)?.node;
        self.handles[handle as usize] = None;
        self.sweep(node);
        Ok(Reply::Done)
    }

    fn read(&self, handle: u64, from: u64, most: u64) -> Answer {
        if most > MOST_BYTES {
            return Err(10);
        }
        match &self.now.node(self.opened(handle)?.node).body {
            Body::File(bytes) => Ok(Reply::Bytes(bytes.read(from, most))),
            _ => Err(4),
        }
    }

    /// The file of a handle that may write.
    fn written(&self, handle: u64) -> Result<(u64, &Bytes), u8> {
        let handle = self.opened(handle)?;
        match &self.now.node(handle.node).body {
            Body::File(bytes) if handle.write => Ok((handle.node, bytes)),
            _ => Err(9),
        }
    }

    fn write(&mut self, handle: u64, from: u64, bytes: &[u8]) -> Answer {
        if bytes.len() as u64 > MOST_BYTES {
            return Err(10);
        }
        let (node, old) = self.written(handle)?;
        if u128::from(from) + bytes.len() as u128 > u128::from(MOST_FILE) {
            return Err(10);
        }
        if !bytes.is_empty() {
            let new = old.written(from, bytes);
            self.now.set_bytes(node, new);
        }
        Ok(Reply::Done)
    }

    fn resize(&mut self, handle: u64, size: u64) -> Answer {
        let (node, old) = self.written(handle)?;
        if size > MOST_FILE {
            return Err(10);
        }
        let new = old.resized(size);
        self.now.set_bytes(node, new);
        Ok(Reply::Done)
    }

    pub fn told(&self, number: u64) -> Reply {
        let node = self.now.node(number);
        let (kind, size) = match &node.body {
            Body::File(bytes) => (Kind::File, bytes.len()),
            Body::Folder(folder) => (Kind::Folder, folder.entries.len() as u64),
            Body::Link(path) => (Kind::Link, path.len() as u64),
        };
        Reply::Told { kind, number, size, names: node.names }
    }

    /// What a path leads to, a link at the end not followed.
    fn there(&self, path: &[u8]) -> Result<u64, u8> {
        match self.place(path, false) {
            Place::Wrong(number) => Err(number),
            Place::Missing { .. } => Err(2),
            Place::There { node, .. } => Ok(node),
        }
    }

    /// A name that is there, with its folder and its node.
    fn entry(&self, path: &[u8]) -> Result<(u64, Vec<u8>, u64), u8> {
        match self.place(path, false) {
            Place::Wrong(number) => Err(number),
            Place::Missing { .. } => Err(2),
            Place::There { under: None, .. } => Err(1),
            Place::There { under: Some((folder, name)), node } => Ok((folder, name, node)),
        }
    }

    /// A name that is missing, with its folder.
    fn missing(&self, path: &[u8]) -> Result<(u64, Vec<u8>), u8> {
        match self.place(path, false) {
            Place::Wrong(number) => Err(number),
            Place::There { .. } => Err(5),
            Place::Missing { folder, name } => Ok((folder, name)),
        }
    }

    fn names_entry(path: &[u8]) -> Result<(), u8> {
        if walk::ends_in_name(path) {
            return Ok(());
        }
        Err(1)
    }

    fn make_folder(&mut self, path: &[u8]) -> Answer {
        Self::names_entry(path)?;
        self.numbers_left()?;
        let (folder, name) = self.missing(path)?;
        self.now.add(folder, &name, Tree::new_folder(folder));
        Ok(Reply::Done)
    }

    fn remove(&mut self, path: &[u8]) -> Answer {
        Self::names_entry(path)?;
        let (folder, name, node) = self.entry(path)?;
        if self.now.node(node).is_folder() {
            return Err(4);
        }
        self.now.leave(folder, &name);
        self.sweep(node);
        Ok(Reply::Done)
    }

    fn remove_folder(&mut self, path: &[u8]) -> Answer {
        Self::names_entry(path)?;
        let (folder, name, node) = self.entry(path)?;
        match self.now.folder(node) {
            None => return Err(3),
            Some(inside) if !inside.entries.is_empty() => return Err(6),
            Some(_) => {}
        }
        self.now.leave(folder, &name);
        self.sweep(node);
        Ok(Reply::Done)
    }

    fn next_name(&self, handle: u64, after: &[u8]) -> Answer {
        if after.len() > walk::MOST_NAME {
            return Err(10);
        }
        let folder = self.now.folder(self.opened(handle)?.node).ok_or(3)?;
        match folder.entries.keys().find(|name| &***name > after) {
            Some(name) => Ok(Reply::Named(name.to_vec())),
            None => Err(2),
        }
    }

    fn rename(&mut self, old: &[u8], new: &[u8]) -> Answer {
        Self::names_entry(old)?;
        Self::names_entry(new)?;
        let (from, name, node) = self.entry(old)?;
        let is_folder = self.now.node(node).is_folder();
        let (into, new_name, lost) = match self.place(new, false) {
            Place::Wrong(number) => return Err(number),
            Place::There { under: None, .. } => return Err(1),
            Place::There { under: Some((into, new_name)), node: lost } => (into, new_name, Some(lost)),
            Place::Missing { folder, name } => (folder, name, None),
        };
        if lost == Some(node) {
            return Ok(Reply::Done);
        }
        if is_folder && self.now.is_above(node, into) {
            return Err(11);
        }
        if let Some(lost) = lost {
            match self.now.folder(lost) {
                None if is_folder => return Err(3),
                Some(_) if !is_folder => return Err(4),
                Some(inside) if !inside.entries.is_empty() => return Err(6),
                _ => {}
            }
            self.now.leave(into, &new_name);
        }
        self.now.leave(from, &name);
        self.now.enter(into, &new_name, node);
        self.now.move_under(node, into);
        if let Some(lost) = lost {
            self.sweep(lost);
        }
        Ok(Reply::Done)
    }

    fn join(&mut self, old: &[u8], new: &[u8]) -> Answer {
        Self::names_entry(new)?;
        let node = self.there(old)?;
        let (folder, name) = self.missing(new)?;
        if self.now.node(node).is_folder() {
            return Err(4);
        }
        self.now.enter(folder, &name, node);
        Ok(Reply::Done)
    }

    fn make_link(&mut self, to: &[u8], path: &[u8]) -> Answer {
        Self::names_entry(path)?;
        self.numbers_left()?;
        let (folder, name) = self.missing(path)?;
        if !walk::is_path(to) {
            return Err(1);
        }
        self.now.add(folder, &name, Body::Link(to.into()));
        Ok(Reply::Done)
    }

    fn read_link(&self, path: &[u8]) -> Answer {
        match &self.now.node(self.there(path)?).body {
            Body::Link(to) => Ok(Reply::Path(to.to_vec())),
            _ => Err(9),
        }
    }
}
