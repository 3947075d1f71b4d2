//! A tree of siblings in the plainest way: names, taken apart and put together again.

use crate::images::names::key;
use crate::number::NOSTREAM;
use crate::volume::directory::Directory;
use std::cmp::Ordering;

#[derive(PartialEq, Debug)]
pub enum Plain {
    None,
    Node(Box<Plain>, Vec<u16>, Box<Plain>),
}

use Plain::{Node, None};

impl Plain {
    /// The tree in a directory from this entry on.
    pub fn of(directory: &Directory, top: u32) -> Plain {
        if top == NOSTREAM {
            return None;
        }
        let entry = directory.entry(top as usize);
        Node(
            Box::new(Plain::of(directory, entry.left())),
            entry.name().collect(),
            Box::new(Plain::of(directory, entry.right())),
        )
    }

    /// With a leaf of this name.
    pub fn with(self, name: &[u16]) -> Plain {
        match self {
            None => Node(Box::new(None), name.to_vec(), Box::new(None)),
            Node(left, own, right) => match key(name).cmp(&key(&own)) {
                Ordering::Less => Node(Box::new(left.with(name)), own, right),
                _ => Node(left, own, Box::new(right.with(name))),
            },
        }
    }

    pub fn without(self, name: &[u16]) -> Plain {
        let Node(left, own, right) = self else { panic!("no such name") };
        match key(name).cmp(&key(&own)) {
            Ordering::Less => Node(Box::new(left.without(name)), own, right),
            Ordering::Greater => Node(left, own, Box::new(right.without(name))),
            Ordering::Equal => match (*left, *right) {
                (only, None) | (None, only) => only,
                (left, right) => {
                    let (rest, greatest) = left.parted();
                    Node(Box::new(rest), greatest, Box::new(right))
                }
            },
        }
    }

    /// All but the greatest, and that one.
    fn parted(self) -> (Plain, Vec<u16>) {
        let Node(left, own, right) = self else { panic!("nothing is the greatest") };
        match *right {
            None => (*left, own),
            right => {
                let (rest, greatest) = right.parted();
                (Node(left, own, Box::new(rest)), greatest)
            }
        }
    }
}
