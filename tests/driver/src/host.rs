//! The host's own file calls as a third opinion: the same calls are made in a folder of the host, and answers compared where both have the same words. tests/README.md has the list of differences.

use reference::calls::{Call, Kind, Reply, State, Way};
use reference::tree::{Body, Tree, TOP};
use reference::walk::{self, Place};
use std::collections::HashMap;
use std::ffi::OsStr;
use std::fs::{self, File, OpenOptions};
use std::io;
use std::os::unix::ffi::{OsStrExt, OsStringExt};
use std::os::unix::fs::{symlink, FileExt, MetadataExt, OpenOptionsExt};
use std::path::{Path, PathBuf};

/// So many links the host follows: the meaning is set to the same number for the comparison.
pub const HOST_LINKS: u32 = 40;

const O_CREAT: i32 = 0o100;
const O_EXCL: i32 = 0o200;

const EPERM: i32 = 1;
const ENOENT: i32 = 2;
const EBADF: i32 = 9;
const EEXIST: i32 = 17;
const ENOTDIR: i32 = 20;
const EISDIR: i32 = 21;
const EINVAL: i32 = 22;
const ENAMETOOLONG: i32 = 36;
const ENOTEMPTY: i32 = 39;
const ELOOP: i32 = 40;

/// Why a call is not made on the host.
#[derive(Clone, Copy, PartialEq, Eq, Hash, PartialOrd, Ord, Debug)]
pub enum Apart {
    /// 1: what is a path, and what ends in a name, is another thing there.
    BadPath,
    /// 10: no limit of 65,536 bytes, 2^32 or 255 there.
    TooLarge,
    /// 13: more handles there.
    Handles,
    /// A sync cannot be seen.
    Sync,
    /// Rename: two reasons, and the host names the other one.
    TwoReasons,
    /// A link whose path ends in a stroke leads only to folders there.
    StrokeAtEnd,
    /// An open folder that has no path, or one that is too long: it is listed by its path.
    NoPath,
}

pub struct Host {
    root: PathBuf,
    files: Vec<Option<File>>,
    /// The host's number of each node.
    inodes: HashMap<u64, u64>,
    pub state: State,
}

/// Strokes at the end are left out: there they say that a folder is meant.
fn without_strokes(path: &[u8]) -> &[u8] {
    let mut path = path;
    while let [front @ .., walk::STROKE] = path {
        if front.is_empty() {
            break;
        }
        path = front;
    }
    path
}

fn number_of(e: &io::Error, call: &Call) -> Option<u8> {
    Some(match e.raw_os_error()? {
        ENOENT => 2,
        ENOTDIR => 3,
        EISDIR => 4,
        EPERM if matches!(call, Call::Join { .. }) => 4,
        EEXIST => 5,
        ENOTEMPTY => 6,
        ELOOP => 7,
        EBADF => 9,
        EINVAL if matches!(call, Call::Rename { .. }) => 11,
        EINVAL => 9,
        ENAMETOOLONG => 1,
        _ => return None,
    })
}

/// What the host answers, as far as the meaning has words for it.
enum Said {
    Reply(Reply),
    Odd(io::Error),
}

impl Host {
    /// Below a folder of the host, which is empty.
    pub fn new(root: &Path) -> Host {
        Host { root: root.to_path_buf(), files: Vec::new(), inodes: HashMap::new(), state: State::fresh(Tree::blank()).with_links(HOST_LINKS) }
    }

    fn at(&self, path: &[u8]) -> PathBuf {
        let mut full = self.root.as_os_str().as_bytes().to_vec();
        full.push(walk::STROKE);
        full.extend_from_slice(path);
        PathBuf::from(OsStr::from_bytes(without_strokes(&full)))
    }

    fn file(&self, handle: u64) -> io::Result<&File> {
        let slot = usize::try_from(handle).ok().and_then(|handle| self.files.get(handle));
        slot.and_then(Option::as_ref).ok_or(io::Error::from_raw_os_error(EBADF))
    }

    /// Makes a call on both. An error is a difference; otherwise says whether both were asked, or why only the meaning was, which then forgets it.
    pub fn call(&mut self, call: &Call) -> Result<Result<(), Apart>, String> {
        let before = self.state.clone();
        let meant = self.state.call(call);
        if let Some(apart) = self.apart(&before, call, &meant) {
            self.state = before;
            return Ok(Err(apart));
        }
        if meant == Reply::No(8) {
            return Ok(Ok(()));
        }
        let said = match self.make(&before, call, &meant) {
            Ok(reply) => Said::Reply(reply),
            Err(e) => match number_of(&e, call) {
                Some(number) => Said::Reply(Reply::No(number)),
                None => Said::Odd(e),
            },
        };
        match said {
            Said::Reply(reply) if reply == meant || same_but_for_order(&before, call, &meant, &reply) => Ok(Ok(())),
            Said::Reply(reply) => Err(format!("the meaning says {}, the host {}", reference::text::of_reply(&meant), reference::text::of_reply(&reply))),
            Said::Odd(e) => Err(format!("the meaning says {}, the host {e}", reference::text::of_reply(&meant))),
        }
    }

    fn apart(&self, before: &State, call: &Call, meant: &Reply) -> Option<Apart> {
        match (call, meant) {
            (Call::Sync, _) => Some(Apart::Sync),
            (_, Reply::No(1)) => Some(Apart::BadPath),
            (Call::Rename { old, new } | Call::Join { old, new }, _) if !walk::is_path(old) || !walk::is_path(new) => Some(Apart::BadPath),
            (_, Reply::No(10)) => Some(Apart::TooLarge),
            (_, Reply::No(13)) => Some(Apart::Handles),
            (Call::Read { from, .. } | Call::Write { from, .. }, _) if *from > i64::MAX as u64 => Some(Apart::TooLarge),
            (Call::Resize { size, .. }, _) if *size > i64::MAX as u64 => Some(Apart::TooLarge),
            (Call::MakeLink { to, .. }, _) if !walk::is_path(to) => Some(Apart::BadPath),
            (Call::MakeLink { to, .. }, _) if without_strokes(to) != &to[..] => Some(Apart::StrokeAtEnd),
            (Call::Rename { old, new }, Reply::No(_)) => {
                let is_missing = !matches!(before.place(old, false), Place::There { .. });
                let is_wrong = matches!(before.place(new, false), Place::Wrong(_));
                (is_missing && is_wrong).then_some(Apart::TwoReasons)
            }
            (Call::NextName { handle, .. } | Call::StatOpen { handle }, Reply::Named(_) | Reply::Told { kind: Kind::Folder, .. } | Reply::No(2)) => {
                let node = before.node_of(*handle)?;
                path_to(&before.now, node).is_none().then_some(Apart::NoPath)
            }
            _ => None,
        }
    }

    fn make(&mut self, before: &State, call: &Call, meant: &Reply) -> io::Result<Reply> {
        match call {
            Call::Open { way, write, path } => {
                let flags = match way {
                    Way::Old => 0,
                    Way::May => O_CREAT,
                    Way::New => O_CREAT | O_EXCL,
                };
                let file = OpenOptions::new().read(true).write(*write).custom_flags(flags).open(self.at(path))?;
                let lowest = self.files.iter().position(Option::is_none).unwrap_or(self.files.len());
                if lowest == self.files.len() {
                    self.files.push(None);
                }
                self.files[lowest] = Some(file);
                Ok(Reply::Handle(lowest as u64))
            }
            Call::Close { handle } => {
                self.file(*handle)?;
                self.files[*handle as usize] = None;
                Ok(Reply::Done)
            }
            Call::Read { handle, from, most } => self.read(*handle, *from, *most),
            Call::Write { handle, from, bytes } => {
                let file = self.file(*handle)?;
                // no bytes are written even where none may be
                match bytes.is_empty() {
                    true => file.write_at(bytes, *from).map(|_| Reply::Done),
                    false => file.write_all_at(bytes, *from).map(|()| Reply::Done),
                }
            }
            Call::Resize { handle, size } => self.file(*handle)?.set_len(*size).map(|()| Reply::Done),
            Call::Stat { path } => {
                let at = self.at(path);
                let told = fs::symlink_metadata(&at)?;
                self.told(before, &told, Some(&at), meant)
            }
            Call::StatOpen { handle } => {
                let told = self.file(*handle)?.metadata()?;
                let at = before.node_of(*handle).and_then(|node| path_to(&before.now, node)).map(|path| self.at(&path));
                self.told(before, &told, at.as_deref(), meant)
            }
            Call::MakeFolder { path } => fs::create_dir(self.at(path)).map(|()| Reply::Done),
            Call::Remove { path } => fs::remove_file(self.at(path)).map(|()| Reply::Done),
            Call::RemoveFolder { path } => fs::remove_dir(self.at(path)).map(|()| Reply::Done),
            Call::NextName { handle, after } => self.next_name(before, *handle, after),
            Call::Rename { old, new } => fs::rename(self.at(old), self.at(new)).map(|()| Reply::Done),
            Call::Join { old, new } => fs::hard_link(self.at(old), self.at(new)).map(|()| Reply::Done),
            Call::MakeLink { to, path } => symlink(OsStr::from_bytes(to), self.at(path)).map(|()| Reply::Done),
            Call::ReadLink { path } => fs::read_link(self.at(path)).map(|to| Reply::Path(to.into_os_string().into_vec())),
            Call::Sync => Ok(Reply::Done),
        }
    }

    fn read(&self, handle: u64, from: u64, most: u64) -> io::Result<Reply> {
        let file = self.file(handle)?;
        let mut bytes = vec![0; most as usize];
        let mut got = 0;
        loop {
            let count = file.read_at(&mut bytes[got..], from + got as u64)?;
            got += count;
            if count == 0 || got == bytes.len() {
                bytes.truncate(got);
                return Ok(Reply::Bytes(bytes));
            }
        }
    }

    /// What the host tells, with the number of the node that the meaning has for it: two nodes have two numbers there too, and one keeps its own.
    fn told(&mut self, before: &State, told: &fs::Metadata, at: Option<&Path>, meant: &Reply) -> io::Result<Reply> {
        let Reply::Told { number, names, .. } = *meant else {
            return Ok(Reply::Done);
        };
        let odd = |why: &str| io::Error::other(why.to_string());
        let inode = *self.inodes.entry(number).or_insert(told.ino());
        if inode != told.ino() {
            return Err(odd("another node than before under that number"));
        }
        if self.inodes.iter().any(|(other, ino)| *other != number && *ino == inode && before.now.get(*other).is_some()) {
            return Err(odd("one node under two numbers"));
        }
        let kind = if told.is_dir() {
            Kind::Folder
        } else if told.is_symlink() {
            Kind::Link
        } else {
            Kind::File
        };
        let size = match (kind, at) {
            (Kind::Folder, Some(at)) => fs::read_dir(at)?.count() as u64,
            (_, _) => told.len(),
        };
        // a folder's own count there is of the folders in it
        let names = if kind == Kind::Folder { names } else { told.nlink() };
        Ok(Reply::Told { kind, number, size, names })
    }

    fn next_name(&self, before: &State, handle: u64, after: &[u8]) -> io::Result<Reply> {
        let file = self.file(handle)?;
        if !file.metadata()?.is_dir() {
            return Ok(Reply::No(3));
        }
        let path = before.node_of(handle).and_then(|node| path_to(&before.now, node)).unwrap_or_default();
        let mut next: Option<Vec<u8>> = None;
        for entry in fs::read_dir(self.at(&path))? {
            let name = entry?.file_name().into_vec();
            if &name[..] > after && next.as_ref().is_none_or(|least| name < *least) {
                next = Some(name);
            }
        }
        Ok(next.map_or(Reply::No(2), Reply::Named))
    }

    /// Whether both have the same tree: kinds, sizes, bytes, names.
    pub fn same_tree(&mut self) -> Result<u64, String> {
        let mut seen = 0;
        let mut left = vec![(Vec::new(), TOP)];
        while let Some((path, number)) = left.pop() {
            seen += 1;
            let at = self.at(&path);
            let shown = reference::text::of_path(&path);
            let state = self.state.clone();
            let meant = state.told(number);
            let told = fs::symlink_metadata(&at).map_err(|e| format!("{shown}: {e}"))?;
            let said = self.told(&state, &told, Some(&at), &meant).map_err(|e| format!("{shown}: {e}"))?;
            if said != meant {
                return Err(format!("{shown}: the meaning says {}, the host {}", reference::text::of_reply(&meant), reference::text::of_reply(&said)));
            }
            match &state.now.node(number).body {
                Body::File(bytes) if bytes.len() <= 1 << 22 => {
                    let there = fs::read(&at).map_err(|e| format!("{shown}: {e}"))?;
                    if reference::bytes::fnv(&there) != bytes.digest() {
                        return Err(format!("{shown}: other bytes"));
                    }
                }
                Body::Folder(folder) if path.len() < 3000 => left.extend(folder.entries.iter().map(|(name, node)| ([&path[..], b"/", name].concat(), *node))),
                _ => {}
            }
        }
        Ok(seen)
    }

    /// Empties the folder of the host.
    pub fn clear(root: &Path) -> io::Result<()> {
        for entry in fs::read_dir(root)? {
            let entry = entry?;
            match entry.file_type()?.is_dir() {
                true => fs::remove_dir_all(entry.path())?,
                false => fs::remove_file(entry.path())?,
            }
        }
        Ok(())
    }
}

/// The path of a folder that has one.
fn path_to(tree: &Tree, folder: u64) -> Option<Vec<u8>> {
    let mut path: Vec<u8> = Vec::new();
    let mut at = folder;
    while at != TOP {
        let node = tree.get(at)?;
        let Body::Folder(inside) = &node.body else {
            return Some(Vec::new());
        };
        let above = tree.get(inside.parent)?;
        let Body::Folder(above) = &above.body else {
            return None;
        };
        let (name, _) = above.entries.iter().find(|(_, node)| **node == at)?;
        path.splice(0..0, [b"/", &name[..]].concat());
        at = inside.parent;
    }
    if path.len() > 3000 {
        return None;
    }
    if path.is_empty() {
        path.push(walk::STROKE);
    }
    Some(path)
}

/// Where the host tests in another order: a file or link that is moved over a folder that it is in, 6 there in place of 4.
fn same_but_for_order(before: &State, call: &Call, meant: &Reply, said: &Reply) -> bool {
    let Call::Rename { old, new } = call else {
        return false;
    };
    match (before.place(old, false), before.place(new, false)) {
        (Place::There { under: Some((from, _)), .. }, Place::There { node, .. }) => *meant == Reply::No(4) && *said == Reply::No(6) && before.now.is_above(node, from),
        _ => false,
    }
}
