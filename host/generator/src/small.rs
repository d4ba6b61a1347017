//! All small games.

use crate::Table;

/// Every game of n vertices, at most 3, and priorities 0 and 1, vertices without edges included; of
/// games that differ only in the numbers of their vertices one.
pub fn small_games(n: usize) -> Vec<Table> {
    let count = 1u32 << (2 * n + n * n);
    let tables = (0..count).map(|code| by_code(n, code));
    tables
        .filter(|table| numberings(n).iter().all(|of| code(table, &[0, 1, 2]) <= code(table, of)))
        .collect()
}

/// The game whose bits, from the lowest, are the priorities, the owners and the pairs of vertices.
fn by_code(n: usize, code: u32) -> Table {
    let bit = |i: usize| (code >> i & 1) as u16;
    let pairs = (0..n * n).filter(|i| bit(2 * n + i) == 1);
    Table {
        priorities: (0..n).map(bit).collect(),
        owners: (n..2 * n).map(bit).collect(),
        edges: pairs.map(|i| ((i / n) as u16, (i % n) as u16)).collect(),
    }
}

/// The bits of a game where vertex v has the number `of[v]`.
fn code(table: &Table, of: &[usize]) -> u32 {
    let n = table.n();
    let vertices = (0..n)
        .map(|v| (table.priorities[v] as u32) << of[v] | (table.owners[v] as u32) << (n + of[v]));
    let edges =
        table.edges.iter().map(|edge| 1 << (2 * n + of[edge.0 as usize] * n + of[edge.1 as usize]));
    vertices.chain(edges).sum()
}

/// The ways to number n vertices.
fn numberings(n: usize) -> Vec<Vec<usize>> {
    let all = [[0, 1, 2], [1, 0, 2], [0, 2, 1], [2, 1, 0], [1, 2, 0], [2, 0, 1]];
    let of_n = all.iter().map(|of| of[..n].to_vec());
    of_n.filter(|of| of.iter().all(|&place| place < n)).collect()
}
