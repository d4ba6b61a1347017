//! One call, made of the library and of the oracle.

use oracle::{Answer, Edit, Memory, Oracle};
use raskjomi::exports::{self, RaskjomiAnswer};
use raskjomi::{Edited, PlanSize, Refusal, Size, Verdict};
use std::ops::RangeInclusive;

/// A call of the library.
#[derive(Clone, Copy, Debug, PartialEq, Eq, PartialOrd, Ord)]
pub enum Call {
    Read,
    Order,
    AcceptRelation,
    Classes,
    Quotient,
    Reduce,
    Convert,
    AcceptPlan,
    Carry,
    CarryClass,
    Verdict,
    AddEdge,
    RemoveEdge,
    PreviewAdd,
    PreviewRemove,
    Replay,
    Seed,
    GovernedOrder,
    AcceptGoverned,
    GovernedClasses,
}

impl Call {
    /// The calls on a game and lent memory.
    pub const ON_MEMORY: [Call; 10] = [
        Call::Read,
        Call::Order,
        Call::AcceptRelation,
        Call::Classes,
        Call::Quotient,
        Call::Reduce,
        Call::Convert,
        Call::GovernedOrder,
        Call::AcceptGoverned,
        Call::GovernedClasses,
    ];

    /// The calls that carry a plan.
    pub const CARRYING: [Call; 2] = [Call::Carry, Call::CarryClass];

    /// The calls that edit a table.
    pub const EDITING: [Call; 2] = [Call::AddEdge, Call::RemoveEdge];

    /// The calls that preview an edit.
    pub const PREVIEWING: [Call; 2] = [Call::PreviewAdd, Call::PreviewRemove];

    /// Every call with an answer.
    pub fn all() -> impl Iterator<Item = Call> {
        let others = [Call::AcceptPlan, Call::Verdict, Call::Replay, Call::Seed];
        let edits = Call::EDITING.into_iter().chain(Call::PREVIEWING);
        Call::ON_MEMORY.into_iter().chain(Call::CARRYING).chain(edits).chain(others)
    }

    /// The refusals that docs/CONTRACT.md gives the call.
    pub fn refusals(self) -> Vec<u32> {
        let own: &[RangeInclusive<u32>] = match self {
            Call::Seed => return vec![31, 32],
            Call::Read => &[],
            Call::Order | Call::GovernedOrder => &[21..=22],
            Call::AcceptRelation | Call::AcceptGoverned => &[10..=10, 21..=21, 41..=41],
            Call::Classes | Call::GovernedClasses => &[21..=23],
            Call::Quotient | Call::Reduce => &[21..=24],
            Call::Convert => &[24..=24, 36..=36],
            Call::AcceptPlan => &[11..=16],
            Call::Carry => &[11..=16, 21..=22, 33..=35],
            Call::CarryClass => &[11..=16, 21..=24, 33..=35],
            Call::Verdict => &[11..=16, 21..=24, 33..=33],
            Call::AddEdge => &[21..=23, 37..=37, 39..=39],
            Call::RemoveEdge => &[21..=23, 37..=38],
            Call::PreviewAdd => &[21..=24, 37..=37, 39..=39],
            Call::PreviewRemove => &[21..=24, 37..=38],
            Call::Replay => &[21..=23, 37..=40],
        };
        generator::REFUSALS.into_iter().chain(own.iter().cloned().flatten()).collect()
    }
}

/// A call with its input and the memory lent to it.
#[derive(Clone, Debug)]
pub struct Case {
    pub call: Call,
    pub game: Vec<u16>,
    pub memory: Memory,
    pub player: u32,
    pub plan: Vec<u16>,
    /// Where the plan is carried to, or what the verdict is about.
    pub vertex: u32,
    /// The edge that comes or goes; the table that is edited is in the memory.
    pub edge: (u32, u32),
    /// The trace that is replayed in that table.
    pub trace: Vec<u16>,
    /// A seed, and the numbers of vertices, of edges out of each, and of priorities.
    pub seed: [u32; 4],
}

/// What a call leaves.
#[derive(Clone, Debug, PartialEq, Eq)]
pub struct Outcome {
    pub answer: Answer,
    pub memory: Memory,
}

impl Case {
    /// A call on a game and memory.
    pub fn on_memory(call: Call, game: &[u16], memory: Memory) -> Case {
        let game = game.to_vec();
        let (plan, edge, trace) = (vec![], (0, 0), vec![]);
        Case { call, game, memory, player: 0, plan, vertex: 0, edge, trace, seed: [0; 4] }
    }

    /// The judgement of a plan.
    pub fn of_plan(game: &[u16], player: u32, plan: Vec<u16>) -> Case {
        let case = Case::on_memory(Call::AcceptPlan, game, Memory::default());
        Case { player, plan, ..case }
    }

    /// The carrying of a plan to a vertex.
    pub fn of_carrying(
        call: Call,
        game: &[u16],
        player: u32,
        plan: &[u16],
        vertex: u32,
        memory: Memory,
    ) -> Case {
        let case = Case::on_memory(call, game, memory);
        Case { player, plan: plan.to_vec(), vertex, ..case }
    }

    /// The verdict on a player and a vertex.
    pub fn of_verdict(
        game: &[u16],
        vertex: u32,
        player: u32,
        plan: &[u16],
        memory: Memory,
    ) -> Case {
        Case::of_carrying(Call::Verdict, game, player, plan, vertex, memory)
    }

    /// An edit of the table that begins the memory's.
    pub fn of_edit(call: Call, edge: (u32, u32), memory: Memory) -> Case {
        Case { edge, ..Case::on_memory(call, &[], memory) }
    }

    /// The preview of an edit of the table that begins `game`, in the memory's.
    pub fn of_preview(call: Call, edge: (u32, u32), game: &[u16], memory: Memory) -> Case {
        Case { edge, ..Case::on_memory(call, game, memory) }
    }

    /// The replay of a trace in the table that begins the memory's.
    pub fn of_replay(trace: Vec<u16>, memory: Memory) -> Case {
        Case { trace, ..Case::on_memory(Call::Replay, &[], memory) }
    }

    /// The drawing of a game into an output.
    pub fn of_seed(seed: [u32; 4], output: Vec<u16>) -> Case {
        let memory = Memory { output, ..Memory::default() };
        Case { seed, ..Case::on_memory(Call::Seed, &[], memory) }
    }

    /// The outcome by the oracle.
    pub fn expected(&self, oracle: &Oracle) -> Outcome {
        let (game, mut memory) = (&self.game[..], self.memory.clone());
        let answer = match self.call {
            Call::Read => oracle.read(game),
            Call::Order => oracle.order(game, &mut memory),
            Call::AcceptRelation => oracle.accept_relation(game, &memory),
            Call::Classes => oracle.classes(game, &mut memory),
            Call::Quotient => oracle.quotient(game, &mut memory),
            Call::Reduce => oracle.reduce(game, &mut memory),
            Call::Convert => oracle.convert(game, &mut memory),
            Call::AcceptPlan => oracle.accept_plan(game, self.player, &self.plan),
            Call::Carry => oracle.carry(game, self.player, &self.plan, self.vertex, &mut memory),
            Call::CarryClass => {
                oracle.carry_class(game, self.player, &self.plan, self.vertex, &mut memory)
            }
            Call::Verdict => {
                oracle.verdict(game, self.vertex, self.player, &self.plan, &mut memory)
            }
            Call::AddEdge => oracle.edit(Edit::Add, self.edge, &mut memory),
            Call::RemoveEdge => oracle.edit(Edit::Remove, self.edge, &mut memory),
            Call::PreviewAdd => oracle.preview(Edit::Add, self.edge, game, &mut memory),
            Call::PreviewRemove => oracle.preview(Edit::Remove, self.edge, game, &mut memory),
            Call::Replay => oracle.replay(&self.trace, &mut memory),
            Call::Seed => oracle.seed(self.seed, &mut memory),
            Call::GovernedOrder => oracle.governed_order(game, &mut memory),
            Call::AcceptGoverned => oracle.accept_governed(game, &memory),
            Call::GovernedClasses => oracle.governed_classes(game, &mut memory),
        };
        Outcome { answer, memory }
    }

    /// The outcome by the library's export. Lent memory stands between guards, which the call may
    /// not touch.
    pub fn actual(&self) -> Outcome {
        let (game, [seed, n, degree, priorities]) = (&self.game[..], self.seed);
        let (mut marks, mut spare) =
            (Guarded::new(&self.memory.marks), Guarded::new(&self.memory.spare));
        let (mut classes, mut output) =
            (Guarded::new(&self.memory.classes), Guarded::new(&self.memory.output));
        let (mut reduction, mut table) =
            (Guarded::new(&self.memory.reduction), Guarded::new(&self.memory.table));
        let (m, s, c, o) = (marks.lend(), spare.lend(), classes.lend(), output.lend());
        let (r, player, plan, vertex) = (reduction.lend(), self.player, &self.plan, self.vertex);
        let (t, (from, to)) = (table.lend(), self.edge);
        let answer = match self.call {
            Call::Read => exports::read(game),
            Call::Order => exports::order(game, m, s),
            Call::AcceptRelation => exports::accept_relation(game, m),
            Call::Classes => exports::classes(game, m, s, c),
            Call::Quotient => exports::quotient(game, m, s, c, o),
            Call::Reduce => exports::reduce(game, m, s, c, o),
            Call::Convert => exports::convert(game, o),
            Call::AcceptPlan => exports::accept_plan(game, player, plan),
            Call::Carry => exports::carry(game, player, plan, vertex, m, s, o),
            Call::CarryClass => exports::carry_class(game, player, plan, vertex, m, s, c, r, o),
            Call::Verdict => exports::verdict(game, vertex, player, plan, m, s, c, r),
            Call::AddEdge => exports::add_edge(t, from, to, m, s, c),
            Call::RemoveEdge => exports::remove_edge(t, from, to, m, s, c),
            Call::PreviewAdd => exports::preview_add(game, from, to, t, m, s, c),
            Call::PreviewRemove => exports::preview_remove(game, from, to, t, m, s, c),
            Call::Replay => exports::replay(t, &self.trace, m, s, c),
            Call::Seed => exports::seed(seed, n, degree, priorities, o),
            Call::GovernedOrder => exports::governed_order(game, m, s),
            Call::AcceptGoverned => exports::accept_governed(game, m),
            Call::GovernedClasses => exports::governed_classes(game, m, s, c),
        };
        let memory = Memory {
            table: table.content(),
            marks: marks.content(),
            spare: spare.content(),
            classes: classes.content(),
            reduction: reduction.content(),
            output: output.content(),
        };
        Outcome { answer: plain(answer), memory }
    }

    /// The counts that the safe function hands on, or its refusal, as an answer.
    pub fn safe_answer(&self) -> Answer {
        let (game, mut memory) = (&self.game[..], self.memory.clone());
        let Memory { table, marks, spare, classes, reduction, output } = &mut memory;
        let (player, plan, vertex) = (self.player, &self.plan, self.vertex);
        let of_size = |Size { vertices, edges, different, .. }| Answer {
            vertices: vertices as u32,
            edges: edges as u32,
            different: different as u32,
            ..Answer::default()
        };
        let of_table = |size: Size| {
            assert_eq!(size.different, size.edges, "each edge stands once");
            Answer { classes: size.vertices as u32, different: 0, ..of_size(size) }
        };
        let of_filled = |(vertices, edges)| Answer {
            vertices: vertices as u32,
            edges: edges as u32,
            ..Answer::default()
        };
        let of_plan = |PlanSize { positions, links, .. }| Answer {
            positions: positions as u32,
            links: links as u32,
            ..Answer::default()
        };
        let of_both = |(size, plan)| {
            let Answer { positions, links, .. } = of_plan(plan);
            Answer { positions, links, ..of_table(size) }
        };
        let of_edit = |Edited { classes, vertices, edges, .. }| Answer {
            classes: classes as u32,
            ..of_filled((vertices, edges))
        };
        let of_classes = |classes| Answer { classes: classes as u32, ..Answer::default() };
        let (from, to) = self.edge;
        let verdict = match self.call {
            Call::Read => raskjomi::read(game).map(of_size),
            Call::Order => raskjomi::order(game, marks, spare)
                .map(|passes| Answer { passes, ..Answer::default() }),
            Call::AcceptRelation => {
                raskjomi::accept_relation(game, marks).map(|()| Answer::default())
            }
            Call::Classes => raskjomi::classes(game, marks, spare, classes).map(of_classes),
            Call::Quotient => raskjomi::quotient(game, marks, spare, classes, output).map(of_table),
            Call::Reduce => raskjomi::reduce(game, marks, spare, classes, output).map(of_table),
            Call::Convert => raskjomi::convert(game, output).map(of_filled),
            Call::AcceptPlan => {
                raskjomi::accept_plan(game, player, plan).map(|()| Answer::default())
            }
            Call::Carry => {
                raskjomi::carry(game, player, plan, vertex, marks, spare, output).map(of_plan)
            }
            Call::CarryClass => raskjomi::carry_class(
                game, player, plan, vertex, marks, spare, classes, reduction, output,
            )
            .map(of_both),
            Call::Verdict => {
                match raskjomi::verdict(
                    game, vertex, player, plan, marks, spare, classes, reduction,
                ) {
                    Verdict::Wins(size) => Ok(Answer { shown: 1, ..of_table(size) }),
                    Verdict::NotShown(size) => Ok(of_table(size)),
                    Verdict::Refused(refusal) => Err(refusal),
                }
            }
            Call::AddEdge => {
                raskjomi::add_edge(table, from, to, marks, spare, classes).map(of_edit)
            }
            Call::RemoveEdge => {
                raskjomi::remove_edge(table, from, to, marks, spare, classes).map(of_edit)
            }
            Call::PreviewAdd => {
                raskjomi::preview_add(game, from, to, table, marks, spare, classes).map(of_edit)
            }
            Call::PreviewRemove => {
                raskjomi::preview_remove(game, from, to, table, marks, spare, classes).map(of_edit)
            }
            Call::Replay => {
                let replay = raskjomi::replay(table, &self.trace, marks, spare, classes);
                let refused =
                    |Refusal { number, place }| Answer { number, place, ..Answer::default() };
                let answer = replay.verdict.map_or_else(refused, of_edit);
                Ok(Answer { entries: replay.entries as u32, ..answer })
            }
            Call::Seed => {
                let [seed, n, degree, priorities] = self.seed;
                raskjomi::seed(seed, n, degree, priorities, output).map(of_filled)
            }
            Call::GovernedOrder => raskjomi::governed_order(game, marks, spare)
                .map(|passes| Answer { passes, ..Answer::default() }),
            Call::AcceptGoverned => {
                raskjomi::accept_governed(game, marks).map(|()| Answer::default())
            }
            Call::GovernedClasses => {
                raskjomi::governed_classes(game, marks, spare, classes).map(of_classes)
            }
        };
        let refused = |Refusal { number, place }| Answer { number, place, ..Answer::default() };
        verdict.unwrap_or_else(refused)
    }
}

fn plain(answer: RaskjomiAnswer) -> Answer {
    let RaskjomiAnswer {
        number,
        passes,
        classes,
        vertices,
        edges,
        different,
        positions,
        links,
        entries,
        place,
        shown,
    } = answer;
    Answer {
        number,
        passes,
        classes,
        vertices,
        edges,
        different,
        positions,
        links,
        entries,
        place,
        shown,
    }
}

/// A buffer inside a larger one whose ends must stay as they are.
struct Guarded<T> {
    all: Vec<T>,
}

const GUARD: usize = 16;
const GUARD_VALUE: u8 = 0xa5;

impl<T: Copy + From<u8> + PartialEq> Guarded<T> {
    fn new(content: &[T]) -> Guarded<T> {
        let guard = [T::from(GUARD_VALUE); GUARD];
        Guarded { all: [&guard, content, &guard].concat() }
    }

    fn lend(&mut self) -> &mut [T] {
        let end = self.all.len() - GUARD;
        &mut self.all[GUARD..end]
    }

    fn content(self) -> Vec<T> {
        let (front, rest) = self.all.split_at(GUARD);
        let (content, back) = rest.split_at(rest.len() - GUARD);
        let whole = front.iter().chain(back).all(|&value| value == T::from(GUARD_VALUE));
        assert!(whole, "a call wrote outside the memory lent to it");
        content.to_vec()
    }
}
