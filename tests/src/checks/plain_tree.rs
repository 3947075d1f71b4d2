//! Group 15 in the plainest way: the whole of each side is listed and compared.

use crate::breaks;
use crate::cases::mutate;
use crate::images::Sample;
use crate::number::NOSTREAM;
use crate::random::Random;
use crate::volume::{
    chains::Chains, directory::Directory, entry::BLANK, header::Header, length_allowed, tables::Tables, tree, version,
};
use std::cmp::Ordering::Less;

/// All entries of a subtree; None if a number is wrong or more are met than there are.
fn members(directory: &Directory, top: u32, met: &mut usize) -> Option<Vec<usize>> {
    if top == NOSTREAM {
        return Some(Vec::new());
    }
    let number = top as usize;
    *met += 1;
    if number == 0 || *met > directory.count() || number >= directory.count() || directory.entry(number).kind() == BLANK
    {
        return None;
    }
    let entry = directory.entry(number);
    let mut all = members(directory, entry.left(), met)?;
    all.push(number);
    all.extend(members(directory, entry.right(), met)?);
    Some(all)
}

/// One tree of siblings: order and colours of each node against all below it.
fn tree_holds(directory: &Directory, top: u32) -> Option<Vec<usize>> {
    let all = members(directory, top, &mut 0)?;
    for &number in &all {
        let node = directory.entry(number);
        let left = members(directory, node.left(), &mut 0)?;
        let right = members(directory, node.right(), &mut 0)?;
        let ordered = left.iter().all(|&l| directory.entry(l).name_order(&node) == Less)
            && right.iter().all(|&r| node.name_order(&directory.entry(r)) == Less);
        let red = |side: u32| side != NOSTREAM && directory.entry(side as usize).is_red();
        let coloured = !(node.is_red() && (red(node.left()) || red(node.right())));
        if !ordered || !coloured || top as usize == number && node.is_red() {
            return None;
        }
    }
    Some(all)
}

fn plain(directory: &Directory) -> bool {
    let mut times = vec![0; directory.count()];
    let mut holders = vec![0];
    while let Some(holder) = holders.pop() {
        let Some(inside) = tree_holds(directory, directory.entry(holder).child()) else { return false };
        for number in inside {
            times[number] += 1;
            if times[number] > 1 {
                return false;
            }
            holders.push(number);
        }
    }
    (1..times.len()).all(|number| (times[number] == 1) == (directory.entry(number).kind() != BLANK))
}

/// The directory of an image of which groups 10 to 14 hold.
fn directory(image: &[u8]) -> Option<Directory> {
    length_allowed(image).then_some(())?;
    let g = version(image);
    let count = g.count(image.len()) as usize;
    let header = Header::read(g, image)?;
    let tables = Tables::read(g, image, count, &header)?;
    let directory = Directory::read(g, image, &Chains::new(&tables.cells[..count]), &header)?;
    directory.entries_hold().then_some(directory)
}

#[test]
fn trees_agree_with_plain_lists() {
    let breaks: Vec<_> = breaks::all().into_iter().filter(|b| b.expected == 15 || b.expected == 0).collect();
    let (mut held, mut broken) = (0, 0);
    for number in 0..4_000 {
        let mut random = Random::of(3, number);
        let mut sample = Sample::random(&mut random);
        if sample.layout.nodes.len() > 80 {
            continue;
        }
        match number % 3 {
            0 => drop(random.pick(&breaks).apply(&mut sample, &mut random)),
            _ => drop(mutate::mutate(&mut sample, &mut random)),
        }
        if let Some(directory) = directory(&sample.image) {
            let holds = tree::holds(&directory);
            assert_eq!(holds, plain(&directory), "image {number}");
            if holds { held += 1 } else { broken += 1 }
        }
    }
    assert!(held > 300 && broken > 300, "{held} {broken}");
}
