//! Games by the seed.

use super::{refused, EDGES, VERTICES};
use raskjomi::exports::RaskjomiAnswer;

/// The generator, with its state.
struct Generator(u32);

impl Generator {
    /// A draw modulo a limit.
    fn below(&mut self, limit: u32) -> u16 {
        self.0 = self.0.wrapping_mul(1_664_525).wrapping_add(1_013_904_223);
        (self.0 / 65_536 % limit) as u16
    }
}

/// The drawing of a game, as the library's call of this name.
pub fn seed(
    seed: u32,
    vertices: u32,
    degree: u32,
    priorities: u32,
    output: &mut [u16],
) -> RaskjomiAnswer {
    let outside = |number: u32, limit: u32| number == 0 || number > limit;
    if outside(vertices, VERTICES as u32) || outside(degree, 16) || outside(priorities, 65_535) {
        return refused(31, 0);
    }
    let (n, d) = (vertices as usize, degree as usize);
    let m = n * d;
    if m > EDGES {
        return refused(31, 0);
    }
    let words = 2 + 2 * n + 2 * m;
    if output.len() < words {
        return refused(32, words);
    }
    write(Generator(seed), n, d, priorities, &mut output[..words]);
    RaskjomiAnswer { vertices, edges: m as u32, ..RaskjomiAnswer::default() }
}

/// Writes the table.
fn write(mut generator: Generator, n: usize, d: usize, priorities: u32, table: &mut [u16]) {
    (table[0], table[1]) = (n as u16, (n * d) as u16);
    let (vertices, edges) = table[2..].split_at_mut(2 * n);
    let (sources, targets) = edges.split_at_mut(n * d);
    for v in 0..n {
        vertices[v] = generator.below(priorities);
        vertices[n + v] = generator.below(2);
        for j in v * d..(v + 1) * d {
            sources[j] = v as u16;
            targets[j] = generator.below(n as u32);
        }
    }
}
