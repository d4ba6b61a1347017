//! Answers of the exports, as the calls give them.

use crate::exports::RaskjomiAnswer;
use crate::{Edited, PlanSize, Refusal, Size};

/// The answer if it accepts, else its refusal.
pub(crate) fn judged(answer: RaskjomiAnswer) -> Result<RaskjomiAnswer, Refusal> {
    match answer.number {
        0 => Ok(answer),
        number => Err(Refusal { number, place: answer.place }),
    }
}

/// The size of a table in which so many edges are different.
pub(crate) fn size(answer: RaskjomiAnswer, different: u32) -> Size {
    let [vertices, edges, different] =
        [answer.vertices, answer.edges, different].map(|count| count as usize);
    Size { vertices, edges, different }
}

/// The size of a table that a call has written: each edge stands there once.
pub(crate) fn written(answer: RaskjomiAnswer) -> Size {
    size(answer, answer.edges)
}

/// The numbers of vertices and of edges in a table that a call has filled, or in a large one that it has read.
pub(crate) fn filled(answer: RaskjomiAnswer) -> (usize, usize) {
    (answer.vertices as usize, answer.edges as usize)
}

/// The size of a plan that a call has written.
pub(crate) fn carried(answer: RaskjomiAnswer) -> PlanSize {
    PlanSize { positions: answer.positions as usize, links: answer.links as usize }
}

/// The counts of an edited table.
pub(crate) fn edited(answer: RaskjomiAnswer) -> Edited {
    let [classes, vertices, edges] =
        [answer.classes, answer.vertices, answer.edges].map(|count| count as usize);
    Edited { classes, vertices, edges }
}
