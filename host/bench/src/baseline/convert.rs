//! Games where the highest priority decides.

use super::reader::read;
use super::refused;
use raskjomi::exports::RaskjomiAnswer;

/// The conversion, as the library's call of this name.
pub fn convert(game: &[u16], output: &mut [u16]) -> RaskjomiAnswer {
    let (n, m) = match read(game) {
        Ok(sizes) => sizes,
        Err(refusal) => return refusal,
    };
    let words = 2 + 2 * n + 2 * m;
    if output.len() < words {
        return refused(24, words);
    }
    let priorities = &game[2..2 + n];
    let highest = priorities.iter().copied().max().unwrap_or(0);
    if highest == 65_535 {
        if let Some(vertex) = priorities.iter().position(|&priority| priority == 0) {
            return refused(36, 2 + vertex);
        }
    }
    let even = u32::from(highest) + u32::from(highest) % 2;
    output[..words].copy_from_slice(game);
    for (new, &old) in output[2..2 + n].iter_mut().zip(priorities) {
        *new = (even - u32::from(old)) as u16;
    }
    RaskjomiAnswer { vertices: n as u32, edges: m as u32, ..RaskjomiAnswer::default() }
}
