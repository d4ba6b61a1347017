//! Classes of the vertices of a game of any size, the game that they reduce it to, and certificates of that.

use crate::large::Ends;
use crate::{LargeTable, Lcg};
use std::collections::{BTreeMap, HashMap};

/// The classes of the largest governed bisimulation, by rounds: two vertices stay in one class while they have the
/// same priority, edges to the same classes, and the same owner or edges to one class at the most. They are numbered by
/// their lowest members.
pub fn classes_by_signatures(game: &LargeTable) -> Vec<u32> {
    let out = Ends::new(game, |edge| edge.0);
    let (mut classes, mut count) = (vec![0; game.n()], 1);
    loop {
        let mut numbers = HashMap::new();
        let refined = (0..game.n()).map(|v| {
            let next = numbers.len() as u32;
            *numbers.entry(signature(game, &out, &classes, v)).or_insert(next)
        });
        classes = refined.collect();
        if numbers.len() == count {
            return classes;
        }
        count = numbers.len();
    }
}

/// The classes that v has edges to, its owner if they are several, its priority and its class.
fn signature(game: &LargeTable, out: &Ends, classes: &[u32], v: usize) -> Vec<u32> {
    let target = |&j: &u32| classes[game.edges[j as usize].1 as usize];
    let mut signature: Vec<u32> = out.edges[out.of(v)].iter().map(target).collect();
    signature.sort_unstable();
    signature.dedup();
    let owner = if signature.len() < 2 { 2 } else { game.owners[v] };
    signature.extend([owner, game.priorities[v], classes[v]]);
    signature
}

/// The game of these classes: each has the priority and the owner of its lowest member, and an edge, once, wherever
/// a member has one. Edges stand by source and target.
pub fn quotient_of(game: &LargeTable, classes: &[u32]) -> LargeTable {
    let k = classes.iter().max().map_or(0, |&class| class as usize + 1);
    let (mut priorities, mut owners) = (vec![0; k], vec![0; k]);
    for (v, &class) in classes.iter().enumerate().rev() {
        priorities[class as usize] = game.priorities[v];
        owners[class as usize] = game.owners[v];
    }
    let class = |v: u32| classes[v as usize];
    let mut edges: Vec<(u32, u32)> =
        game.edges.iter().map(|edge| (class(edge.0), class(edge.1))).collect();
    edges.sort_unstable();
    edges.dedup();
    LargeTable { priorities, owners, edges }
}

/// The numbers that have each key.
fn grouped<K: Ord>(keys: impl Iterator<Item = K>) -> BTreeMap<K, Vec<u32>> {
    let mut groups: BTreeMap<K, Vec<u32>> = BTreeMap::new();
    keys.enumerate().for_each(|(i, key)| groups.entry(key).or_default().push(i as u32));
    groups
}

/// A certificate of a reduction, drawn from those that there are: each word any that will do. Where none does, it is
/// any number.
pub fn some_images(
    lcg: &mut Lcg,
    game: &LargeTable,
    reduced: &LargeTable,
    classes: &[u32],
) -> Vec<u32> {
    let any = game.n().max(game.m()) + 2;
    let drawn = |lcg: &mut Lcg, choices: Option<&Vec<u32>>| match choices {
        Some(choices) => lcg.pick(choices),
        None => lcg.below(any) as u32,
    };
    let of_ends = grouped(reduced.edges.iter());
    let class = |v: u32| classes[v as usize];
    let ends = game.edges.iter().map(|edge| (class(edge.0), class(edge.1)));
    let images: Vec<u32> = ends.map(|ends| drawn(lcg, of_ends.get(&ends))).collect();
    let own = grouped(game.edges.iter().zip(&images).map(|(edge, &image)| (edge.0, image)));
    let rows = grouped(reduced.edges.iter().map(|edge| edge.0));
    let members = grouped(classes.iter());
    let start = |v: u32| own.get(&(v, rows.get(&class(v))?[0]));
    let mut words: Vec<u32> = (0..game.n() as u32).map(|v| drawn(lcg, start(v))).collect();
    words.extend((0..reduced.n() as u32).map(|d| drawn(lcg, members.get(&d))));
    words.extend(&images);
    let after = |(edge, image): (&(u32, u32), &u32)| own.get(&(edge.0, image + 1));
    words.extend(game.edges.iter().zip(&images).map(|pair| drawn(lcg, after(pair))));
    words
}
