//! Paths: cut at strokes, and where they lead.

use crate::tree::{Body, Tree, TOP};

pub const STROKE: u8 = b'/';

/// So many links are followed; the next one is 7.
pub const MOST_LINKS: u32 = 8;

pub const MOST_PATH: usize = 1024;
pub const MOST_NAME: usize = 255;

/// What a path comes to.
pub enum Place {
    /// Nowhere, for a reason.
    Wrong(u8),
    /// A node; and the folder and the name that it was found under, unless the path ends in no name.
    There { under: Option<(u64, Vec<u8>)>, node: u64 },
    /// A name that is missing in a folder that is there.
    Missing { folder: u64, name: Vec<u8> },
}

/// The pieces between strokes; strokes beside each other, at the beginning and at the end part nothing.
pub fn pieces(path: &[u8]) -> Vec<&[u8]> {
    path.split(|b| *b == STROKE).filter(|piece| !piece.is_empty()).collect()
}

pub fn is_path(path: &[u8]) -> bool {
    (1..=MOST_PATH).contains(&path.len()) && !path.contains(&0) && pieces(path).iter().all(|piece| piece.len() <= MOST_NAME)
}

/// Whether a path ends in a name: something that can be made, moved or taken away.
pub fn ends_in_name(path: &[u8]) -> bool {
    match pieces(path).last() {
        None => false,
        Some(last) => *last != b"." && *last != b"..",
    }
}

/// Where a path leads from the topmost folder on. A link at the very end is followed only where `follow` says so.
pub fn place(tree: &Tree, path: &[u8], follow: bool, most_links: u32) -> Place {
    if !is_path(path) {
        return Place::Wrong(1);
    }
    let mut links = most_links;
    let mut folder = TOP;
    // what is left, the next one last
    let mut left: Vec<&[u8]> = pieces(path);
    left.reverse();
    while let Some(piece) = left.pop() {
        let inside = tree.folder(folder).expect("a walk goes through folders");
        if piece == b"." {
            continue;
        }
        if piece == b".." {
            folder = inside.parent;
            continue;
        }
        let at_end = left.is_empty();
        let Some(&node) = inside.entries.get(piece) else {
            return match at_end {
                true => Place::Missing { folder, name: piece.to_vec() },
                false => Place::Wrong(2),
            };
        };
        match &tree.node(node).body {
            Body::Link(to) if follow || !at_end => {
                if links == 0 {
                    return Place::Wrong(7);
                }
                links -= 1;
                if to[0] == STROKE {
                    folder = TOP;
                }
                left.extend(pieces(to).into_iter().rev());
            }
            _ if at_end => return Place::There { under: Some((folder, piece.to_vec())), node },
            Body::Folder(_) => folder = node,
            _ => return Place::Wrong(3),
        }
    }
    Place::There { under: None, node: folder }
}
