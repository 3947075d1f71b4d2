//! Group 15: every tree of siblings walked once, in rising order, in the nodes.

use super::directory::Directory;
use super::image::Image;
use super::names::Rising;
use super::nodes::{self, LINK, Node, REACHED, RED, UNITS};

/// From the top of the root's tree on. The way up is kept in the left links, and so are the storages whose trees are still to be
/// walked.
pub fn check<const S: usize>(
    image: Image<S>,
    directory: Directory,
    nodes: &mut [Node],
    top: u32,
    objects: usize,
) -> Result<(), u32> {
    let mut names = Rising::new(image, directory);
    let (mut at, mut up, mut storages) = (top, 0, 0);
    // What stands above a top counts as red, so that the top has to be black.
    let mut above = RED;
    let (mut before, mut before_units) = (0, 0);
    let (mut reached, mut touched) = (0, 0);
    loop {
        while at != 0 {
            let [first, second] = nodes[at as usize];
            if first & (REACHED | above & RED) != 0 {
                return Err(15);
            }
            // Its right side comes from memory while the left one is walked.
            touched |= nodes[(second & LINK) as usize][0];
            nodes[at as usize][0] = first & !LINK | REACHED | up;
            (above, up, at) = (first, at, first & LINK);
        }
        if up == 0 {
            if storages == 0 {
                break;
            }
            let node = nodes[storages as usize];
            (at, storages) = (nodes::child(node), node[0] & LINK);
            (above, before, before_units) = (RED, 0, 0);
            continue;
        }
        let (this, node) = (up, nodes[up as usize]);
        let units = node[0] >> UNITS & 31;
        if units < before_units || units == before_units && !names.add(before, this, units) {
            return Err(15);
        }
        (before, before_units) = (this, units);
        (above, up, at) = (node[0], node[0] & LINK, node[1] & LINK);
        reached += 1;
        if nodes::child(node) != 0 {
            nodes[this as usize][0] = node[0] & !LINK | storages;
            storages = this;
        }
    }
    std::hint::black_box(touched);
    if names.rise() && reached == objects { Ok(()) } else { Err(15) }
}
