//! The archive's exports as they are: their declarations, and a safe function over each with
//! slices for pointer and length. This is the one module with `unsafe` code. docs/CONTRACT.md says
//! what each export answers and leaves in the lent memory.
//!
//! Nothing but a test compares the declarations with the exports' source.
#![allow(unsafe_code)]

/// An export's answer. Number 0 is "accepted", with the counts that belong to the call; any other
/// number is a refusal with its place. All other fields are 0, but that [`replay`] tells its entries with
/// a refusal too.
#[repr(C)]
#[derive(Clone, Copy, Debug, Default, PartialEq, Eq)]
pub struct RaskjomiAnswer {
    /// 0 where the call accepts, else the number of the refusal.
    pub number: u32,
    /// The number of passes.
    pub passes: u32,
    /// The number of classes.
    pub classes: u32,
    /// The number n of vertices of the table read or written.
    pub vertices: u32,
    /// The number m of edges in the table read or written.
    pub edges: u32,
    /// The number of different edges.
    pub different: u32,
    /// The number p of positions of the plan written.
    pub positions: u32,
    /// The number l of links of the plan written.
    pub links: u32,
    /// The number of entries of a trace that were done.
    pub entries: u32,
    /// The place of the refusal.
    pub place: usize,
    /// 1 where [`verdict`] confirms that the player wins, else 0.
    pub shown: u32,
}

#[rustfmt::skip]
extern "C" {
    fn raskjomi_read(game: *const u16, game_len: usize) -> RaskjomiAnswer;
    fn raskjomi_order(
        game: *const u16, game_len: usize,
        marks: *mut u8, marks_len: usize,
        spare: *mut u8, spare_len: usize,
    ) -> RaskjomiAnswer;
    fn raskjomi_accept_relation(
        game: *const u16, game_len: usize,
        marks: *const u8, marks_len: usize,
    ) -> RaskjomiAnswer;
    fn raskjomi_classes(
        game: *const u16, game_len: usize,
        marks: *mut u8, marks_len: usize,
        spare: *mut u8, spare_len: usize,
        classes: *mut u16, classes_len: usize,
    ) -> RaskjomiAnswer;
    fn raskjomi_quotient(
        game: *const u16, game_len: usize,
        marks: *mut u8, marks_len: usize,
        spare: *mut u8, spare_len: usize,
        classes: *mut u16, classes_len: usize,
        output: *mut u16, output_len: usize,
    ) -> RaskjomiAnswer;
    fn raskjomi_reduce(
        game: *const u16, game_len: usize,
        marks: *mut u8, marks_len: usize,
        spare: *mut u8, spare_len: usize,
        classes: *mut u16, classes_len: usize,
        output: *mut u16, output_len: usize,
    ) -> RaskjomiAnswer;
    fn raskjomi_accept_plan(
        game: *const u16, game_len: usize,
        player: u32,
        plan: *const u16, plan_len: usize,
    ) -> RaskjomiAnswer;
    fn raskjomi_carry(
        game: *const u16, game_len: usize,
        player: u32,
        plan: *const u16, plan_len: usize,
        vertex: u32,
        marks: *mut u8, marks_len: usize,
        spare: *mut u8, spare_len: usize,
        output: *mut u16, output_len: usize,
    ) -> RaskjomiAnswer;
    fn raskjomi_carry_class(
        game: *const u16, game_len: usize,
        player: u32,
        plan: *const u16, plan_len: usize,
        vertex: u32,
        marks: *mut u8, marks_len: usize,
        spare: *mut u8, spare_len: usize,
        classes: *mut u16, classes_len: usize,
        reduction: *mut u16, reduction_len: usize,
        output: *mut u16, output_len: usize,
    ) -> RaskjomiAnswer;
    fn raskjomi_verdict(
        game: *const u16, game_len: usize,
        vertex: u32, player: u32,
        plan: *const u16, plan_len: usize,
        marks: *mut u8, marks_len: usize,
        spare: *mut u8, spare_len: usize,
        classes: *mut u16, classes_len: usize,
        reduction: *mut u16, reduction_len: usize,
    ) -> RaskjomiAnswer;
    fn raskjomi_seed(
        seed: u32, vertices: u32, degree: u32, priorities: u32,
        output: *mut u16, output_len: usize,
    ) -> RaskjomiAnswer;
    fn raskjomi_convert(
        game: *const u16, game_len: usize,
        output: *mut u16, output_len: usize,
    ) -> RaskjomiAnswer;
    fn raskjomi_add_edge(
        table: *mut u16, table_len: usize,
        source: u32, target: u32,
        marks: *mut u8, marks_len: usize,
        spare: *mut u8, spare_len: usize,
        classes: *mut u16, classes_len: usize,
    ) -> RaskjomiAnswer;
    fn raskjomi_remove_edge(
        table: *mut u16, table_len: usize,
        source: u32, target: u32,
        marks: *mut u8, marks_len: usize,
        spare: *mut u8, spare_len: usize,
        classes: *mut u16, classes_len: usize,
    ) -> RaskjomiAnswer;
    fn raskjomi_preview_add(
        game: *const u16, game_len: usize,
        source: u32, target: u32,
        table: *mut u16, table_len: usize,
        marks: *mut u8, marks_len: usize,
        spare: *mut u8, spare_len: usize,
        classes: *mut u16, classes_len: usize,
    ) -> RaskjomiAnswer;
    fn raskjomi_preview_remove(
        game: *const u16, game_len: usize,
        source: u32, target: u32,
        table: *mut u16, table_len: usize,
        marks: *mut u8, marks_len: usize,
        spare: *mut u8, spare_len: usize,
        classes: *mut u16, classes_len: usize,
    ) -> RaskjomiAnswer;
    fn raskjomi_replay(
        table: *mut u16, table_len: usize,
        trace: *const u16, trace_len: usize,
        marks: *mut u8, marks_len: usize,
        spare: *mut u8, spare_len: usize,
        classes: *mut u16, classes_len: usize,
    ) -> RaskjomiAnswer;
    fn raskjomi_governed_order(
        game: *const u16, game_len: usize,
        marks: *mut u8, marks_len: usize,
        spare: *mut u8, spare_len: usize,
    ) -> RaskjomiAnswer;
    fn raskjomi_accept_governed(
        game: *const u16, game_len: usize,
        marks: *const u8, marks_len: usize,
    ) -> RaskjomiAnswer;
    fn raskjomi_governed_classes(
        game: *const u16, game_len: usize,
        marks: *mut u8, marks_len: usize,
        spare: *mut u8, spare_len: usize,
        classes: *mut u16, classes_len: usize,
    ) -> RaskjomiAnswer;
    fn raskjomi_large_read(game: *const u32, game_len: usize) -> RaskjomiAnswer;
    fn raskjomi_large_solution(
        game: *const u32, game_len: usize,
        solution: *const u32, solution_len: usize,
        certificate: *const u32, certificate_len: usize,
    ) -> RaskjomiAnswer;
    fn raskjomi_large_reduction(
        game: *const u32, game_len: usize,
        reduced: *const u32, reduced_len: usize,
        classes: *const u32, classes_len: usize,
        certificate: *const u32, certificate_len: usize,
    ) -> RaskjomiAnswer;
    fn raskjomi_kind(number: u32) -> u32;
}

/// Calls an export with the slices that it reads, then those lent to it: each goes as a pointer, then
/// a length. Numbers go between two slices.
macro_rules! call {
    ($export:ident; shared $($shared:ident $(then $($number:ident)and+)?),*;
        lent $($lent:ident $(then $($after:ident)and+)?),*) => {
        // SAFETY: each pointer and length are those of one live slice, the lent slices are borrowed
        // for this call alone, and the exports are proved for slices of any length and content, and
        // for any number.
        unsafe {
            $export(
                $($shared.as_ptr(), $shared.len(), $($($number,)+)?)*
                $($lent.as_mut_ptr(), $lent.len(), $($($after,)+)?)*
            )
        }
    };
}

/// The reader, on any words.
pub fn read(game: &[u16]) -> RaskjomiAnswer {
    call!(raskjomi_read; shared game; lent)
}

/// The order.
pub fn order(game: &[u16], marks: &mut [u8], spare: &mut [u8]) -> RaskjomiAnswer {
    call!(raskjomi_order; shared game; lent marks, spare)
}

/// The relation acceptor.
pub fn accept_relation(game: &[u16], marks: &[u8]) -> RaskjomiAnswer {
    call!(raskjomi_accept_relation; shared game, marks; lent)
}

/// The classes.
pub fn classes(
    game: &[u16],
    marks: &mut [u8],
    spare: &mut [u8],
    classes: &mut [u16],
) -> RaskjomiAnswer {
    call!(raskjomi_classes; shared game; lent marks, spare, classes)
}

/// The quotient game.
pub fn quotient(
    game: &[u16],
    marks: &mut [u8],
    spare: &mut [u8],
    classes: &mut [u16],
    output: &mut [u16],
) -> RaskjomiAnswer {
    call!(raskjomi_quotient; shared game; lent marks, spare, classes, output)
}

/// The reduced game.
pub fn reduce(
    game: &[u16],
    marks: &mut [u8],
    spare: &mut [u8],
    classes: &mut [u16],
    output: &mut [u16],
) -> RaskjomiAnswer {
    call!(raskjomi_reduce; shared game; lent marks, spare, classes, output)
}

/// The plan acceptor.
pub fn accept_plan(game: &[u16], player: u32, plan: &[u16]) -> RaskjomiAnswer {
    call!(raskjomi_accept_plan; shared game then player, plan; lent)
}

/// The plan carried to another vertex.
pub fn carry(
    game: &[u16],
    player: u32,
    plan: &[u16],
    vertex: u32,
    marks: &mut [u8],
    spare: &mut [u8],
    output: &mut [u16],
) -> RaskjomiAnswer {
    call!(raskjomi_carry; shared game then player, plan then vertex; lent marks, spare, output)
}

/// The plan on the reduced game carried to a vertex of the game.
#[allow(clippy::too_many_arguments)]
pub fn carry_class(
    game: &[u16],
    player: u32,
    plan: &[u16],
    vertex: u32,
    marks: &mut [u8],
    spare: &mut [u8],
    classes: &mut [u16],
    reduction: &mut [u16],
    output: &mut [u16],
) -> RaskjomiAnswer {
    call!(
        raskjomi_carry_class; shared game then player, plan then vertex;
        lent marks, spare, classes, reduction, output
    )
}

/// The verdict call.
#[allow(clippy::too_many_arguments)]
pub fn verdict(
    game: &[u16],
    vertex: u32,
    player: u32,
    plan: &[u16],
    marks: &mut [u8],
    spare: &mut [u8],
    classes: &mut [u16],
    reduction: &mut [u16],
) -> RaskjomiAnswer {
    call!(
        raskjomi_verdict; shared game then vertex and player, plan;
        lent marks, spare, classes, reduction
    )
}

/// A game by the seed.
pub fn seed(
    seed: u32,
    vertices: u32,
    degree: u32,
    priorities: u32,
    output: &mut [u16],
) -> RaskjomiAnswer {
    let (pointer, length) = (output.as_mut_ptr(), output.len());
    // SAFETY: as in `call!`; the numbers go before the slice.
    unsafe { raskjomi_seed(seed, vertices, degree, priorities, pointer, length) }
}

/// A game where the highest priority decides, as one where the lowest does.
pub fn convert(game: &[u16], output: &mut [u16]) -> RaskjomiAnswer {
    call!(raskjomi_convert; shared game; lent output)
}

/// An edge added to the table that begins a buffer.
pub fn add_edge(
    table: &mut [u16],
    source: u32,
    target: u32,
    marks: &mut [u8],
    spare: &mut [u8],
    classes: &mut [u16],
) -> RaskjomiAnswer {
    call!(
        raskjomi_add_edge; shared; lent table then source and target, marks, spare, classes
    )
}

/// Every copy of an edge removed from the table that begins a buffer.
pub fn remove_edge(
    table: &mut [u16],
    source: u32,
    target: u32,
    marks: &mut [u8],
    spare: &mut [u8],
    classes: &mut [u16],
) -> RaskjomiAnswer {
    call!(
        raskjomi_remove_edge; shared; lent table then source and target, marks, spare, classes
    )
}

/// An edge added to a copy of the table that begins a shared buffer.
pub fn preview_add(
    game: &[u16],
    source: u32,
    target: u32,
    table: &mut [u16],
    marks: &mut [u8],
    spare: &mut [u8],
    classes: &mut [u16],
) -> RaskjomiAnswer {
    call!(
        raskjomi_preview_add; shared game then source and target;
        lent table, marks, spare, classes
    )
}

/// Every copy of an edge removed from a copy of the table that begins a shared buffer.
pub fn preview_remove(
    game: &[u16],
    source: u32,
    target: u32,
    table: &mut [u16],
    marks: &mut [u8],
    spare: &mut [u8],
    classes: &mut [u16],
) -> RaskjomiAnswer {
    call!(
        raskjomi_preview_remove; shared game then source and target;
        lent table, marks, spare, classes
    )
}

/// A trace of edits replayed in the table that begins a buffer.
pub fn replay(
    table: &mut [u16],
    trace: &[u16],
    marks: &mut [u8],
    spare: &mut [u8],
    classes: &mut [u16],
) -> RaskjomiAnswer {
    let (words, count) = (trace.as_ptr(), trace.len());
    call!(raskjomi_replay; shared; lent table then words and count, marks, spare, classes)
}

/// The largest governed bisimulation.
pub fn governed_order(game: &[u16], marks: &mut [u8], spare: &mut [u8]) -> RaskjomiAnswer {
    call!(raskjomi_governed_order; shared game; lent marks, spare)
}

/// The acceptor of governed bisimulations.
pub fn accept_governed(game: &[u16], marks: &[u8]) -> RaskjomiAnswer {
    call!(raskjomi_accept_governed; shared game, marks; lent)
}

/// The classes of the largest governed bisimulation.
pub fn governed_classes(
    game: &[u16],
    marks: &mut [u8],
    spare: &mut [u8],
    classes: &mut [u16],
) -> RaskjomiAnswer {
    call!(raskjomi_governed_classes; shared game; lent marks, spare, classes)
}

/// The reader of large games, on any words.
pub fn large_read(game: &[u32]) -> RaskjomiAnswer {
    call!(raskjomi_large_read; shared game; lent)
}

/// The check of a large game's solution with its certificate.
pub fn large_solution(game: &[u32], solution: &[u32], certificate: &[u32]) -> RaskjomiAnswer {
    call!(raskjomi_large_solution; shared game, solution, certificate; lent)
}

/// The check of a large game's reduction with its certificate.
pub fn large_reduction(
    game: &[u32],
    reduced: &[u32],
    classes: &[u32],
    certificate: &[u32],
) -> RaskjomiAnswer {
    call!(raskjomi_large_reduction; shared game, reduced, classes, certificate; lent)
}

/// The kind of a refusal number.
pub fn kind(number: u32) -> u32 {
    // SAFETY: only a number goes in and comes out.
    unsafe { raskjomi_kind(number) }
}
