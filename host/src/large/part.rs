//! The part of a large game that a vertex reaches.

use super::write::by_source;
use super::LargeGame;

/// A part of a game that no edge leaves, so that each of its vertices keeps all its edges, and its winner.
#[derive(Clone, Debug, PartialEq, Eq)]
#[non_exhaustive]
pub struct Part {
    /// The part, a game of its own. Its edges stand in the sequence of the whole game's.
    pub game: LargeGame,
    /// The number that each of its vertices has in the whole game, ascending.
    pub vertices: Vec<u32>,
}

impl LargeGame {
    /// The part of the game that a vertex reaches, the vertex included.
    ///
    /// ```
    /// // Vertex 0 leads to 2, which is a loop; 1 leads to 0.
    /// let game = raskjomi::LargeGame::new(vec![3, 3, 5, 6, 7, 0, 1, 0, 1, 0, 2, 0, 2, 2])?;
    /// let part = game.reachable(0);
    /// assert_eq!(part.vertices, [0, 2]);
    /// assert_eq!(part.game.words(), [2, 2, 5, 7, 0, 0, 0, 1, 1, 1]);
    /// # Ok::<(), raskjomi::Refusal>(())
    /// ```
    pub fn reachable(&self, vertex: u32) -> Part {
        let vertices = self.reached(vertex);
        let mut numbers = vec![0; self.size().vertices];
        for (number, &vertex) in (0..).zip(&vertices) {
            numbers[vertex as usize] = number;
        }
        let is_reached = |&(source, _): &(u32, u32)| vertices.binary_search(&source).is_ok();
        let edges = self.edges().filter(is_reached);
        let (sources, targets): (Vec<u32>, Vec<u32>) =
            edges.map(|(v, w)| (numbers[v as usize], numbers[w as usize])).unzip();
        let mut words = vec![vertices.len() as u32, sources.len() as u32];
        words.extend(vertices.iter().map(|&vertex| self.priority(vertex)));
        words.extend(vertices.iter().map(|&vertex| u32::from(self.owner(vertex))));
        words.extend(sources.into_iter().chain(targets));
        let game = LargeGame::new(words).expect("a part of a table is well formed");
        Part { game, vertices }
    }

    /// The vertices that a vertex reaches, ascending.
    fn reached(&self, vertex: u32) -> Vec<u32> {
        let n = self.size().vertices;
        let (starts, edges) = by_source(n, self.sources());
        let (mut is_reached, mut next) = (vec![false; n], vec![vertex]);
        is_reached[vertex as usize] = true;
        while let Some(vertex) = next.pop() {
            for &edge in &edges[starts[vertex as usize]..starts[vertex as usize + 1]] {
                let target = self.target(edge);
                if !std::mem::replace(&mut is_reached[target as usize], true) {
                    next.push(target);
                }
            }
        }
        (0..n as u32).filter(|&vertex| is_reached[vertex as usize]).collect()
    }
}
