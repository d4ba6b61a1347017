//! Games, relations and plans from a seed, the same on every machine, and a solver that finds
//! winners. For tests and the benchmark only.
#![forbid(unsafe_code)]

mod carries;
mod damage;
mod edits;
mod families;
mod large;
mod large_families;
mod large_planted;
mod large_quotients;
mod large_reduced;
mod large_small;
mod large_solver;
mod large_words;
mod lcg;
mod lift;
mod plans;
mod relations;
mod repeats;
mod sample;
mod seeds;
mod small;
mod solver;
mod table;
mod walks;

pub use carries::{
    branching, crowded, opponents, round_complete, round_of_loops, round_plan, round_ring,
};
pub use damage::{damaged, damaged_often, REFUSALS};
pub use edits::{damaged_trace, edge_to_edit, trace, trace_words, words_behind};
pub use families::{
    chain, complete, copies, fans, forced_ring, random, ring, rings, tailed_rings, watched_rings,
};
pub use large::LargeTable;
pub use large_families::{
    any_large, large_clique, large_component, large_ladder, large_loops, large_nested, large_path,
    large_random,
};
pub use large_planted::{
    any_planted, large_chains, large_distinct, large_hub, large_uniform, planted, Planting,
};
pub use large_quotients::{classes_by_signatures, quotient_of, some_images};
pub use large_reduced::{ReducedWords, REDUCTION_REFUSALS};
pub use large_small::{large_games_of, lists, partitions};
pub use large_solver::{solve_large, LargeSolved};
pub use large_words::{certificate_of, some_order, LargeWords, LARGE_REFUSALS};
pub use lcg::Lcg;
pub use lift::lift;
pub use plans::{largest_plan, plans_at_limits, renumbered, strategy_plan, unfolded, Plan};
pub use relations::{relation, set_unused_bits};
pub use repeats::{repeated, same_game};
pub use sample::{any_game, bent_plan, old_bytes, old_words};
pub use seeds::{seed_numbers, SEED_LIMITS};
pub use small::small_games;
pub use solver::{solve, Solution};
pub use table::Table;
pub use walks::{falling_steps, nested_loops, one_step, rising_steps, sources_into_core, stairs};
