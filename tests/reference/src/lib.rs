//! What files, folders, links and handles on a card mean, kept in memory and written from the words of their description alone: a second opinion on a file system.

pub mod built;
pub mod bytes;
pub mod calls;
pub mod judge;
pub mod player;
pub mod radix;
pub mod show;
pub mod text;
pub mod tree;
pub mod walk;
