//! The maker beside the proved call, on small games with all kinds of solutions and on large ones of each family.

use super::certificate::make;
use super::flaw::Flaw;
use crate::{large_solution, Player};

/// Numbers that look random, the same each time.
struct Draw(u64);

impl Draw {
    fn below(&mut self, bound: usize) -> usize {
        self.0 ^= self.0 << 13;
        self.0 ^= self.0 >> 7;
        self.0 ^= self.0 << 17;
        (self.0 >> 11) as usize % bound
    }
}

type Edges = Vec<(u32, u32)>;

/// The words of a game and of a solution where each vertex's last edge is chosen.
fn solved(
    priorities: &[u32],
    owners: &[u32],
    winners: &[u32],
    edges: &Edges,
) -> (Vec<u32>, Vec<u32>) {
    let mut choices = vec![0; winners.len()];
    for (edge, &(source, _)) in (0..).zip(edges) {
        choices[source as usize] = edge;
    }
    let sizes = [winners.len() as u32, edges.len() as u32];
    let (sources, targets): (Vec<u32>, Vec<u32>) = edges.iter().copied().unzip();
    ([&sizes, priorities, owners, &sources, &targets].concat(), [winners, &choices].concat())
}

/// Makes a certificate, which has to pass, or a flaw, which has to be one.
fn certified(game: &[u32], solution: &[u32]) -> Result<(), Flaw> {
    match make(game, solution) {
        Ok(certificate) => assert_eq!(large_solution(game, solution, &certificate), Ok(())),
        Err(flaw) => {
            judge(game, solution, &flaw);
            return Err(flaw);
        }
    }
    Ok(())
}

/// Asserts that a flaw is a closed walk over kept edges that the loser wins, from its lowest vertex.
fn judge(game: &[u32], solution: &[u32], flaw: &Flaw) {
    let (n, m) = (game[0] as usize, game[1] as usize);
    let next = flaw.vertices.iter().cycle().skip(1);
    assert_eq!(flaw.vertices.len(), flaw.edges.len());
    for ((&v, &edge), &w) in flaw.vertices.iter().zip(&flaw.edges).zip(next) {
        let (v, edge) = (v as usize, edge as usize);
        assert_eq!((game[2 + 2 * n + edge], game[2 + 2 * n + m + edge]), (v as u32, w));
        assert_eq!(solution[v], u32::from(flaw.winner));
        assert!(game[2 + n + v] != solution[v] || solution[n + v] == edge as u32);
        assert!(game[2 + v] >= flaw.priority);
    }
    assert_eq!(flaw.priority, game[2 + flaw.vertices[0] as usize]);
    assert_ne!(flaw.priority % 2, u32::from(flaw.winner));
}

/// A small game with any solution whose moves stay among the vertices of their winner.
fn drawn(draw: &mut Draw) -> (Vec<u32>, Vec<u32>) {
    let n = 1 + draw.below(12);
    let winners: Vec<u32> = (0..n).map(|_| draw.below(2) as u32).collect();
    let owners: Vec<u32> = (0..n).map(|_| draw.below(2) as u32).collect();
    let (count, won) = (1 + draw.below(8), draw.below(5));
    let priority = |v: &u32| match draw.below(4) < won {
        true => 2 * draw.below(count) as u32 + v,
        false => draw.below(count) as u32,
    };
    let priorities: Vec<u32> = winners.iter().map(priority).collect();
    let extra = draw.below(2 * n);
    let mut edges: Edges = Vec::new();
    for edge in 0..n + extra {
        let v = if edge < n { edge } else { draw.below(n) };
        let mut w = draw.below(n);
        while winners[w] != winners[v] {
            w = draw.below(n);
        }
        edges.insert(draw.below(edge + 1), (v as u32, w as u32));
    }
    solved(&priorities, &owners, &winners, &edges)
}

#[test]
fn small_games_get_a_certificate_or_a_flaw() {
    let (mut draw, mut right) = (Draw(88_172_645_463_325_252), 0);
    for _ in 0..40_000 {
        let (game, solution) = drawn(&mut draw);
        right += usize::from(certified(&game, &solution).is_ok());
    }
    assert!((10_000..30_000).contains(&right), "{right} right ones");
}

#[test]
fn flaws_are_short() {
    // A loop, a walk of two and one of three, each of Odd's; the longer way round passes 0 and is Even's.
    let all = [(3, 1), (1, 3), (0, 1), (2, 4), (4, 5), (5, 2), (0, 2), (2, 0), (5, 5)].to_vec();
    for (edges, vertices) in
        [(&all[..], vec![5]), (&all[..8], vec![1, 3]), (&all[3..8], vec![5, 2, 4])]
    {
        let mut edges = edges.to_vec();
        edges.extend([(1, 0), (3, 0)]);
        let (game, solution) = solved(&[0, 1, 2, 3, 2, 1], &[1; 6], &[0; 6], &edges);
        let flaw = certified(&game, &solution).expect_err("Odd wins");
        assert_eq!((flaw.winner, flaw.vertices), (Player::Even, vertices));
    }
}

#[test]
fn a_flaw_is_a_sentence() {
    let (game, solution) = solved(&[3, 4], &[0, 0], &[0, 0], &vec![(0, 1), (1, 0)]);
    let flaw = certified(&game, &solution).expect_err("Odd wins");
    let told = "Even is said to win at vertex a, but the moves of the solution leave Odd the closed walk a -> b -> a, \
                whose lowest priority 3 is odd";
    let name = |v: u32| ["a", "b"][v as usize].into();
    assert_eq!(flaw.told(name, None), told);
    assert!(flaw.told(name, Some(8)).ends_with("whose highest priority 5 in the file is odd"));
    let n = 30;
    let round: Edges = (0..n).map(|v| (v, (v + 1) % n)).collect();
    let (game, solution) = solved(&[2; 30], &[0; 30], &[1; 30], &round);
    let flaw = certified(&game, &solution).expect_err("Even wins");
    assert_eq!(flaw.vertices.len(), 30);
    assert!(
        flaw.to_string().contains(" -> 11 -> (18 more) -> 0, whose lowest priority 2 is even"),
        "{flaw}"
    );
}

const N: u32 = 100_000;

/// All vertices are Odd's, and Even wins.
fn even_wins(priorities: Vec<u32>, edges: Edges) {
    let n = priorities.len();
    let (game, solution) = solved(&priorities, &vec![1; n], &vec![0; n], &edges);
    assert_eq!(certified(&game, &solution), Ok(()));
}

#[test]
fn loops_alone() {
    even_wins(vec![0; N as usize], (0..N).map(|v| (v, v)).collect());
}

#[test]
fn a_long_path_and_a_long_round() {
    let path =
        |last: u32| (0..N).map(|v| (v, if v + 1 < N { v + 1 } else { last })).collect::<Edges>();
    even_wins((0..N).map(|v| if v + 1 < N { 1 + v % 7 } else { 0 }).collect(), path(N - 1));
    even_wins((0..N).collect(), path(0));
    even_wins((0..N).rev().collect(), path(0));
}

#[test]
fn a_ladder_of_different_priorities() {
    // Each even vertex has a round with the next odd one and with the next even one, so that components lie in each other.
    let steps =
        (0..N - 2).step_by(2).flat_map(|v| [(v, v + 1), (v + 1, v), (v, v + 2), (v + 2, v)]);
    let edges: Edges = steps.chain([(N - 1, 0)]).collect();
    even_wins((0..N).collect(), edges);
}

#[test]
fn one_component_with_a_late_flaw() {
    let mut draw = Draw(1);
    let mut edges: Edges = Vec::new();
    for v in 0..N {
        // Odd priorities go down, even ones anywhere up.
        let lower = if v == 0 { 0 } else { draw.below(v as usize) as u32 & !1 };
        let higher = v + draw.below((N - v).min(1000) as usize) as u32;
        edges.extend([(v, lower), (v, if v % 2 == 1 { v - 1 } else { higher })]);
    }
    even_wins((0..N).collect(), edges.clone());
    // An odd priority goes up, and back by the next vertex.
    edges.extend([(N - 3, N - 2), (N - 2, N - 3)]);
    let priorities: Vec<u32> = (0..N).collect();
    let (game, solution) = solved(&priorities, &[1; N as usize], &[0; N as usize], &edges);
    let flaw = certified(&game, &solution).expect_err("Odd wins");
    assert_eq!(flaw.vertices.len(), 2);
}

#[test]
fn all_edges_there_can_be() {
    let n = 300;
    let all = || (0..n).flat_map(|v| (0..n).map(move |w| (v, w)));
    even_wins((0..n).map(|v| v % 3 * 2).collect(), all().collect());
    even_wins((0..n).collect(), all().filter(|&(v, w)| v % 2 == 0 || w < v).collect());
}
