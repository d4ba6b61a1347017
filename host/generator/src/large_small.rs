//! All small games of the form that large ones have, and all partitions of their vertices.

use crate::LargeTable;

/// Every list of numbers, each below its limit, to `each` in turn.
pub fn lists(limits: &[u32], mut each: impl FnMut(&[u32])) {
    let mut list = vec![0; limits.len()];
    loop {
        each(&list);
        let Some(place) = (0..list.len()).find(|&i| list[i] + 1 < limits[i]) else { return };
        list[place] += 1;
        list[..place].fill(0);
    }
}

/// Every game with these priorities. `targets` are the sets of successors that a vertex can have, as bits.
pub fn large_games_of(priorities: &[u32], targets: &[u32], mut each: impl FnMut(&LargeTable)) {
    let n = priorities.len();
    lists(&[vec![2; n], vec![targets.len() as u32; n]].concat(), |list| {
        let (owners, sets) = list.split_at(n);
        let pairs = (0..n * n).filter(|i| targets[sets[i / n] as usize] >> (i % n) & 1 == 1);
        each(&LargeTable {
            priorities: priorities.to_vec(),
            owners: owners.to_vec(),
            edges: pairs.map(|i| ((i / n) as u32, (i % n) as u32)).collect(),
        });
    });
}

/// Every partition of n vertices: the class of each, numbered by the lowest members.
pub fn partitions(n: usize) -> Vec<Vec<u32>> {
    let mut partitions = Vec::new();
    let limits: Vec<u32> = (1..=n as u32).collect();
    lists(&limits, |classes| {
        let most = |v: usize| classes[..v].iter().max().map_or(0, |&class| class + 1);
        if (0..n).all(|v| classes[v] <= most(v)) {
            partitions.push(classes.to_vec());
        }
    });
    partitions
}
