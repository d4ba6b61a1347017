//! The calls as a host makes them: on words and lent memory, with the contract's numbers.

use crate::game::Game;
use crate::reduction::Classes;
use crate::{mark_bytes, Oracle, Relation, Trap};
use std::mem::swap;

/// A call's answer: number 0 for accepted with its counts, else the refusal's number and place.
#[derive(Clone, Copy, Debug, Default, PartialEq, Eq)]
pub struct Answer {
    pub number: u32,
    pub passes: u32,
    pub classes: u32,
    pub vertices: u32,
    pub edges: u32,
    pub different: u32,
    pub positions: u32,
    pub links: u32,
    pub entries: u32,
    pub place: usize,
    /// 1 where the verdict call confirms that the player wins.
    pub shown: u32,
}

/// Why a call turns its input or the lent memory down.
#[derive(Clone, Copy, Debug, PartialEq, Eq)]
pub struct Refusal {
    pub number: u32,
    pub place: usize,
}

/// The memory that a host lends.
#[derive(Clone, Debug, Default, PartialEq, Eq)]
pub struct Memory {
    /// The buffer that a table begins, for the calls that edit it; the second table, for previews.
    pub table: Vec<u16>,
    pub marks: Vec<u8>,
    pub spare: Vec<u8>,
    pub classes: Vec<u16>,
    /// The reduced game, for the calls that take a plan on it.
    pub reduction: Vec<u16>,
    pub output: Vec<u16>,
}

/// Refuses at the place if there is one.
pub(crate) fn refuse_at(place: Option<usize>, number: u32) -> Result<(), Refusal> {
    place.map_or(Ok(()), |place| Err(Refusal { number, place }))
}

/// Refuses at the place if the test holds.
pub(crate) fn refuse_if(test: bool, number: u32, place: usize) -> Result<(), Refusal> {
    refuse_at(test.then_some(place), number)
}

/// Which of the two tables a call writes.
#[derive(Clone, Copy, PartialEq, Eq)]
pub(crate) enum Output {
    Quotient,
    Reduced,
}

/// What a call that writes a table has worked out.
pub(crate) struct Tabulated {
    pub order: Relation,
    pub classes: Classes,
    pub table: Game,
    pub counts: Answer,
}

impl Oracle {
    /// The reader.
    pub fn read(&self, game: &[u16]) -> Answer {
        self.answer(self.game(game).map(|game| {
            let different = self.different(&game) as u32;
            Answer { different, ..self.table_counts(&game) }
        }))
    }

    /// The order.
    pub fn order(&self, game: &[u16], memory: &mut Memory) -> Answer {
        let counts = self.checked(game, memory, 2).map(|game| {
            let (_, passes) = self.write_order(&game, memory);
            Answer { passes, ..Answer::default() }
        });
        self.answer(counts)
    }

    /// The relation acceptor, which reads the marks and writes nothing.
    pub fn accept_relation(&self, game: &[u16], memory: &Memory) -> Answer {
        let game = self.checked(game, &mut memory.clone(), 1);
        let verdict = game.and_then(|game| self.judge_relation(&game, &memory.marks));
        self.answer(verdict.map(|()| Answer::default()))
    }

    /// The classes.
    pub fn classes(&self, game: &[u16], memory: &mut Memory) -> Answer {
        let game = self.checked(game, memory, 3);
        self.answer(game.map(|game| self.write_classes(&game, memory).2))
    }

    /// The quotient game.
    pub fn quotient(&self, game: &[u16], memory: &mut Memory) -> Answer {
        self.table(game, memory, Output::Quotient)
    }

    /// The reduced game.
    pub fn reduce(&self, game: &[u16], memory: &mut Memory) -> Answer {
        self.table(game, memory, Output::Reduced)
    }

    /// The plan acceptor.
    pub fn accept_plan(&self, game: &[u16], player: u32, plan: &[u16]) -> Answer {
        let verdict = self.game(game).and_then(|game| self.judge_plan(&game, player, plan));
        self.answer(verdict.map(|_| Answer::default()))
    }

    /// The kind of a refusal number.
    pub fn kind(&self, number: u32) -> u32 {
        let no_gaps = self.falls_for(Trap::KindsWithoutGaps);
        match number {
            1..=8 => 1,
            9 | 10 => 2,
            11..=16 => 3,
            17..=20 if no_gaps => 3,
            21..=24 => 4,
            25..=30 if no_gaps => 4,
            31..=99 => 5,
            _ => 0,
        }
    }

    fn table(&self, game: &[u16], memory: &mut Memory, wanted: Output) -> Answer {
        let game = self.checked(game, memory, 4);
        let written = game.and_then(|game| self.write_table(&game, memory, wanted));
        self.answer(written.map(|written| written.counts))
    }

    /// The game, if the reader takes it and the first `buffers` of the lent memory are long enough:
    /// the reader's refusals, then 21 to 24 as far as the call goes.
    pub(crate) fn checked(
        &self,
        game: &[u16],
        memory: &mut Memory,
        buffers: usize,
    ) -> Result<Game, Refusal> {
        let game = self.game(game)?;
        self.lengths(&game, memory, buffers)?;
        Ok(game)
    }

    /// Refusals 21 to 24, as far as the first `buffers` go.
    pub(crate) fn lengths(
        &self,
        game: &Game,
        memory: &mut Memory,
        buffers: usize,
    ) -> Result<(), Refusal> {
        let n = game.n();
        let marks = self.mark_bytes(n);
        let needed = [marks, marks, n, self.output_words(game)];
        let lent =
            [memory.marks.len(), memory.spare.len(), memory.classes.len(), memory.output.len()];
        for i in 0..buffers {
            if i == 2 && self.falls_for(Trap::OrderBeforeLengths) {
                self.write_order(game, memory);
            }
            refuse_if(lent[i] < needed[i], 21 + i as u32, needed[i])?;
        }
        Ok(())
    }

    /// The bytes that marks and spare need.
    fn mark_bytes(&self, n: usize) -> usize {
        match self.trap {
            Some(Trap::ByteForEachMark) => n * n,
            Some(Trap::LengthsRoundedDown) => n * n / 8,
            _ => mark_bytes(n),
        }
    }

    /// The words that the output needs.
    fn output_words(&self, game: &Game) -> usize {
        match self.trap {
            Some(Trap::OutputByResult) => 0,
            Some(Trap::OutputByDifferent) => 2 + 2 * game.n() + 2 * game.edges.len(),
            _ => game.words(),
        }
    }

    pub(crate) fn write_order(&self, game: &Game, memory: &mut Memory) -> (Relation, u32) {
        let (order, passes) = self.order_of(game);
        self.write_relation(&order, memory);
        (order, passes)
    }

    /// Writes a relation into marks and spare.
    pub(crate) fn write_relation(&self, relation: &Relation, memory: &mut Memory) {
        self.write_marks(&mut memory.marks, relation);
        if !self.falls_for(Trap::SpareLeftOld) {
            self.write_marks(&mut memory.spare, relation);
        }
    }

    /// Writes the bytes of a relation's marks; unused bits of the last one are 0.
    fn write_marks(&self, memory: &mut [u8], relation: &Relation) {
        let mut bytes = relation.bytes();
        let last = bytes.len() - 1;
        match self.trap {
            Some(Trap::HighestBitFirst) => {
                bytes.iter_mut().for_each(|byte| *byte = byte.reverse_bits())
            }
            Some(Trap::UnusedLeftOld) => {
                let used = relation.cells().len() - 8 * last;
                bytes[last] += (memory[last] as u32 >> used << used) as u8;
            }
            Some(Trap::NextByteCleared) if memory.len() > bytes.len() => bytes.push(0),
            Some(Trap::LengthsRoundedDown) => bytes.truncate(memory.len()),
            _ => {}
        }
        self.write(memory, &bytes);
    }

    /// Writes the classes of a relation; their number.
    pub(crate) fn write_class_words(
        &self,
        game: &Game,
        relation: &Relation,
        memory: &mut Memory,
    ) -> Answer {
        let classes = self.classes_of(game, relation);
        let words: Vec<u16> = classes.of.iter().map(|&class| class as u16).collect();
        self.write(&mut memory.classes, &words);
        Answer { classes: classes.count() as u32, ..Answer::default() }
    }

    pub(crate) fn write_classes(
        &self,
        game: &Game,
        memory: &mut Memory,
    ) -> (Relation, Classes, Answer) {
        let (order, passes) = self.write_order(game, memory);
        let classes = self.classes_of(game, &order);
        let words: Vec<u16> = classes.of.iter().map(|&class| class as u16).collect();
        self.write(&mut memory.classes, &words);
        let passes = if self.falls_for(Trap::PassesEverywhere) { passes } else { 0 };
        let counts = Answer { passes, classes: classes.count() as u32, ..Answer::default() };
        (order, classes, counts)
    }

    pub(crate) fn write_table(
        &self,
        game: &Game,
        memory: &mut Memory,
        wanted: Output,
    ) -> Result<Tabulated, Refusal> {
        let mut after = memory.clone();
        let (order, classes, counts) = self.write_classes(game, &mut after);
        let mut table = self.quotient_of(game, &classes);
        if wanted == Output::Reduced {
            table = self.reduced_of(&table, &classes, &order);
        }
        table = self.listed(&table);
        refuse_if(after.output.len() < table.words(), 24, table.words())?;
        self.write(&mut after.output, &table.table());
        *memory = after;
        let Answer { vertices, edges, .. } = self.table_counts(&table);
        let different = if self.falls_for(Trap::DifferentEverywhere) { edges } else { 0 };
        let counts = Answer { vertices, edges, different, ..counts };
        Ok(Tabulated { order, classes, table, counts })
    }

    /// Refusals 21 to 24, then order, classes and the reduced game, which goes to the reduction as it goes to
    /// the output elsewhere.
    pub(crate) fn write_reduction(
        &self,
        game: &Game,
        memory: &mut Memory,
    ) -> Result<Tabulated, Refusal> {
        swap(&mut memory.reduction, &mut memory.output);
        let written = self
            .lengths(game, memory, 4)
            .and_then(|()| self.write_table(game, memory, Output::Reduced));
        swap(&mut memory.reduction, &mut memory.output);
        written
    }

    pub(crate) fn table_counts(&self, game: &Game) -> Answer {
        let (mut vertices, mut edges) = (game.n() as u32, game.m() as u32);
        if self.falls_for(Trap::CountsExchanged) {
            (vertices, edges) = (edges, vertices);
        }
        Answer { vertices, edges, ..Answer::default() }
    }

    /// Writes at the start of lent memory; what lies beyond has its old content.
    pub(crate) fn write<T: Copy + Default>(&self, memory: &mut [T], new: &[T]) {
        memory[..new.len()].copy_from_slice(new);
        if self.falls_for(Trap::BeyondCleared) {
            memory[new.len()..].fill(T::default());
        }
    }

    pub(crate) fn answer(&self, verdict: Result<Answer, Refusal>) -> Answer {
        verdict.unwrap_or_else(|Refusal { number, place }| Answer {
            number,
            place,
            ..Answer::default()
        })
    }
}
