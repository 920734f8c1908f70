//! Files, folders and links under their numbers. A copy of a tree is cheap; trees since the last sync are kept as copies.

use crate::bytes::{Bytes, BLOCK};
use crate::radix::Radix;
use std::cell::Cell;
use std::collections::BTreeMap;
use std::hash::{DefaultHasher, Hash, Hasher};
use std::rc::Rc;

pub type Name = Rc<[u8]>;

/// The topmost folder, which is in itself.
pub const TOP: u64 = 0;

/// Numbers of nodes end here.
pub const LAST_NUMBER: u64 = (1 << 63) - 1;

#[derive(Clone)]
pub struct Folder {
    pub parent: u64,
    pub entries: BTreeMap<Name, u64>,
    /// What its names weigh: 64 and its bytes for each.
    weight: u64,
}

#[derive(Clone)]
pub enum Body {
    File(Bytes),
    Folder(Folder),
    Link(Name),
}

/// A node, and how many names it has.
#[derive(Clone)]
pub struct Node {
    pub body: Body,
    pub names: u64,
}

impl Node {
    pub fn is_folder(&self) -> bool {
        matches!(self.body, Body::Folder(_))
    }

    /// Whole blocks for the bytes of a file or link.
    fn block_weight(&self) -> u64 {
        let len = match &self.body {
            Body::File(bytes) => bytes.len(),
            Body::Link(path) => path.len() as u64,
            Body::Folder(_) => 0,
        };
        len.div_ceil(BLOCK) * BLOCK
    }

    /// 512 for the node, and what the names in it weigh.
    fn name_weight(&self) -> u64 {
        match &self.body {
            Body::Folder(folder) => 512 + folder.weight,
            _ => 512,
        }
    }
}

thread_local! {
    static VERSIONS: Cell<u64> = const { Cell::new(0) };
}

fn new_version() -> u64 {
    VERSIONS.with(|v| {
        v.set(v.get() + 1);
        v.get()
    })
}

#[derive(Clone)]
pub struct Tree {
    /// Another one after each change: trees of one version are the same.
    version: u64,
    /// The number of the next node that is made.
    next: u64,
    nodes: Radix<Rc<Node>>,
    count: u64,
    /// How many nodes besides the topmost folder have no name.
    nameless: u64,
    blocks: u64,
    names: u64,
}

impl Tree {
    pub fn blank() -> Tree {
        let mut tree = Tree { version: 0, next: 0, nodes: Radix::default(), count: 0, nameless: 0, blocks: 0, names: 0 };
        tree.make(Body::Folder(Folder { parent: TOP, entries: BTreeMap::new(), weight: 0 }));
        tree.nameless = 0;
        tree
    }

    pub fn version(&self) -> u64 {
        self.version
    }

    pub fn next_number(&self) -> u64 {
        self.next
    }

    pub fn get(&self, number: u64) -> Option<&Node> {
        self.nodes.get(number).map(|node| &**node)
    }

    pub fn node(&self, number: u64) -> &Node {
        self.get(number).expect("a number that a name or handle has is one of a node")
    }

    pub fn folder(&self, number: u64) -> Option<&Folder> {
        match &self.node(number).body {
            Body::Folder(folder) => Some(folder),
            _ => None,
        }
    }

    /// Blocks of files and links, in bytes; nodes and names.
    pub fn weights(&self) -> (u64, u64) {
        (self.blocks, self.names)
    }

    pub fn each(&self, mut see: impl FnMut(u64, &Node)) {
        self.nodes.each(&mut |number, node| see(number, node));
    }

    fn put(&mut self, number: u64, node: Node) {
        self.version = new_version();
        self.forget(number);
        self.blocks += node.block_weight();
        self.names += node.name_weight();
        self.count += 1;
        self.nameless += u64::from(node.names == 0 && number != TOP);
        self.nodes.set(number, Rc::new(node));
    }

    fn forget(&mut self, number: u64) {
        if let Some(old) = self.nodes.get(number) {
            self.blocks -= old.block_weight();
            self.names -= old.name_weight();
            self.count -= 1;
            self.nameless -= u64::from(old.names == 0 && number != TOP);
        }
    }

    fn make(&mut self, body: Body) -> u64 {
        let number = self.next;
        self.next += 1;
        self.put(number, Node { body, names: 0 });
        number
    }

    fn recount(&mut self, number: u64, by: i64) {
        let mut node = self.node(number).clone();
        node.names = node.names.checked_add_signed(by).expect("no name is lost that was not there");
        self.put(number, node);
    }

    /// A new node under a name that is missing.
    pub fn add(&mut self, folder: u64, name: &[u8], body: Body) -> u64 {
        let number = self.make(body);
        self.enter(folder, name, number);
        number
    }

    pub fn new_folder(parent: u64) -> Body {
        Body::Folder(Folder { parent, entries: BTreeMap::new(), weight: 0 })
    }

    /// A name that is missing in a folder now stands for a node.
    pub fn enter(&mut self, folder: u64, name: &[u8], number: u64) {
        let mut inside = self.folder(folder).expect("names are entered in folders").clone();
        let old = inside.entries.insert(name.into(), number);
        assert!(old.is_none(), "a name that is entered was missing");
        inside.weight += 64 + name.len() as u64;
        let names = self.node(folder).names;
        self.put(folder, Node { body: Body::Folder(inside), names });
        self.recount(number, 1);
    }

    /// A name that is there is taken away. Its node stays, with a name less.
    pub fn leave(&mut self, folder: u64, name: &[u8]) {
        let mut inside = self.folder(folder).expect("names are left in folders").clone();
        let number = inside.entries.remove(name).expect("a name that is left was there");
        inside.weight -= 64 + name.len() as u64;
        let names = self.node(folder).names;
        self.put(folder, Node { body: Body::Folder(inside), names });
        self.recount(number, -1);
    }

    /// A folder, if it is one, is in another one from now on.
    pub fn move_under(&mut self, number: u64, parent: u64) {
        let mut node = self.node(number).clone();
        if let Body::Folder(folder) = &mut node.body {
            folder.parent = parent;
            self.put(number, node);
        }
    }

    pub fn set_bytes(&mut self, number: u64, bytes: Bytes) {
        let names = self.node(number).names;
        self.put(number, Node { body: Body::File(bytes), names });
    }

    /// A node without a name that nobody has open is gone.
    pub fn sweep(&mut self, number: u64, is_open: bool) {
        if number != TOP && !is_open && self.node(number).names == 0 {
            self.version = new_version();
            self.forget(number);
            self.nodes.remove(number);
        }
    }

    /// As a power cut leaves it: nothing is open.
    pub fn swept(&self) -> Tree {
        let mut tree = self.clone();
        if self.nameless > 0 {
            let mut gone = Vec::new();
            self.each(|number, node| {
                if node.names == 0 {
                    gone.push(number);
                }
            });
            for number in gone {
                tree.sweep(number, false);
            }
        }
        tree
    }

    /// Is the folder a the folder b, or above it?
    pub fn is_above(&self, a: u64, b: u64) -> bool {
        let mut at = b;
        loop {
            if at == a {
                return true;
            }
            if at == TOP {
                return false;
            }
            at = self.folder(at).expect("folders are in folders").parent;
        }
    }

    /// The same for trees that are the same, and hardly ever for others.
    pub fn fingerprint(&self) -> u64 {
        let mut hash = DefaultHasher::new();
        self.next.hash(&mut hash);
        self.each(|number, node| {
            (number, node.names).hash(&mut hash);
            match &node.body {
                Body::File(bytes) => (0, bytes.len(), bytes.digest()).hash(&mut hash),
                Body::Folder(folder) => (1, folder.parent, &folder.entries).hash(&mut hash),
                Body::Link(path) => (2, path).hash(&mut hash),
            }
        });
        hash.finish()
    }

    /// Under how many folders the deepest folder is that has a name.
    pub fn deepest(&self) -> u64 {
        let mut most = 0;
        self.each(|number, node| {
            if node.is_folder() && (node.names > 0 || number == TOP) {
                let mut at = number;
                let mut depth = 0;
                while at != TOP {
                    at = self.folder(at).expect("folders are in folders").parent;
                    depth += 1;
                }
                most = most.max(depth);
            }
        });
        most
    }

    /// The same sums and counts made from nothing, to hold the running ones to.
    pub fn check(&self) {
        let (mut blocks, mut names, mut count, mut nameless) = (0, 0, 0, 0);
        let mut held: BTreeMap<u64, u64> = BTreeMap::new();
        self.each(|number, node| {
            count += 1;
            nameless += u64::from(node.names == 0 && number != TOP);
            names += 512;
            match &node.body {
                Body::File(bytes) => blocks += (bytes.len() + 4095) / 4096 * 4096,
                Body::Link(path) => blocks += (path.len() as u64 + 4095) / 4096 * 4096,
                Body::Folder(folder) => {
                    for (name, to) in &folder.entries {
                        names += 64 + name.len() as u64;
                        *held.entry(*to).or_default() += 1;
                    }
                }
            }
        });
        assert_eq!((blocks, names, count, nameless), (self.blocks, self.names, self.count, self.nameless), "running sums");
        self.each(|number, node| assert_eq!(node.names, held.get(&number).copied().unwrap_or(0), "names of node {number}"));
    }
}
