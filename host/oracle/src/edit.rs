//! Edges that come and go in a table that begins a buffer.

use crate::calls::{refuse_if, Answer, Memory};
use crate::{Game, Oracle, Refusal, Trap};

const MOST_EDGES: usize = 4096;

/// Which edit a call makes.
#[derive(Clone, Copy, Debug, PartialEq, Eq)]
pub enum Edit {
    Add,
    Remove,
}

impl Oracle {
    /// The call: the table that begins `memory.table` gets an edge, or loses every copy of one.
    pub fn edit(&self, edit: Edit, edge: (u32, u32), memory: &mut Memory) -> Answer {
        self.edit_with_room(edit, edge, memory.table.len(), memory)
    }

    /// The preview: the edit, made on a copy of the table that begins `game` in `memory.table`, the
    /// second table. After a refusal the memory is old.
    pub fn preview(
        &self,
        edit: Edit,
        edge: (u32, u32),
        game: &[u16],
        memory: &mut Memory,
    ) -> Answer {
        let mut copy = memory.clone();
        let second = copy.table.len();
        let of_both = self.falls_for(Trap::RoomOfTheFirst);
        let room = if of_both { second.min(game.len()) } else { second };
        let laid = self.lay(game, &mut copy);
        let (kept, verdict) = (
            laid.is_ok() && self.falls_for(Trap::CopiedBeforeEdge),
            laid.map(|()| self.edit_with_room(edit, edge, room, &mut copy)),
        );
        let answer = self.answer(verdict);
        if answer.number == 0 || kept {
            *memory = copy;
        }
        answer
    }

    /// The edit, in a buffer that counts as so long.
    fn edit_with_room(
        &self,
        edit: Edit,
        edge: (u32, u32),
        room: usize,
        memory: &mut Memory,
    ) -> Answer {
        let verdict = self.edited(edit, edge, room, memory).map(|(old, new)| {
            let freed = if self.falls_for(Trap::FreedLeftOld) { 0 } else { old.words() };
            let mut words = new.table();
            words.resize(words.len().max(freed), 0);
            self.write(&mut memory.table, &words);
            let classed = if self.falls_for(Trap::OldClasses) { &old } else { &new };
            let (_, _, counts) = self.write_classes(classed, memory);
            let Answer { vertices, edges, .. } = self.table_counts(&new);
            Answer { vertices, edges, ..counts }
        });
        self.answer(verdict)
    }

    /// The first table is laid over the start of the second, or a refusal: 1 to 8 of the first, then 21
    /// to 24 of the second set.
    fn lay(&self, game: &[u16], memory: &mut Memory) -> Result<(), Refusal> {
        let first = self.beginning(game)?;
        let needed = first.words();
        let short = refuse_if(memory.table.len() < needed, 24, needed);
        if self.falls_for(Trap::TableBeforeMemory) {
            short?;
        }
        self.lengths(&first, memory, 3)?;
        short?;
        memory.table[..needed].copy_from_slice(&game[..needed]);
        if self.falls_for(Trap::BeyondFromFirst) {
            let end = game.len().min(memory.table.len());
            memory.table[needed..end].copy_from_slice(&game[needed..end]);
        }
        Ok(())
    }

    /// The game before and after the edit, or a refusal.
    fn edited(
        &self,
        edit: Edit,
        edge: (u32, u32),
        room: usize,
        memory: &mut Memory,
    ) -> Result<(Game, Game), Refusal> {
        let game = self.beginning(&memory.table)?;
        self.lengths(&game, memory, 3)?;
        if self.falls_for(Trap::RoomBeforeEdge) && edit == Edit::Add {
            self.room(&game, room)?;
        }
        let (source, target) = self.ends(&game, edit, edge)?;
        match edit {
            Edit::Add => self.room(&game, room)?,
            Edit::Remove => refuse_if(self.is_last(&game, source), 38, source)?,
        }
        let listed = self.listed_after(edit, (source, target), &game.listed);
        let new = Game::new(game.priority.clone(), game.owner.clone(), listed);
        Ok((game, new))
    }

    /// The game of the table that begins a buffer: refusals 1 to 8, where 4 means "shorter".
    pub(crate) fn beginning(&self, buffer: &[u16]) -> Result<Game, Refusal> {
        let needed = match buffer {
            &[n, m, ..] => 2 + 2 * n as usize + 2 * m as usize,
            _ => 0,
        };
        let exact = self.falls_for(Trap::LongBufferRefused);
        let end = if exact || needed == 0 { buffer.len() } else { needed.min(buffer.len()) };
        self.game(&buffer[..end])
    }

    /// The edge between vertices, or refusal 37.
    fn ends(
        &self,
        game: &Game,
        edit: Edit,
        (source, target): (u32, u32),
    ) -> Result<(usize, usize), Refusal> {
        let [from, to] = [source, target].map(|end| end as usize);
        let bad_target = self.falls_for(Trap::BadEndAsPlace) && from < game.n() && to >= game.n();
        let outside = from >= game.n() || to >= game.n();
        refuse_if(outside, 37, if bad_target { to } else { from })?;
        let there = game.edges.contains(&(from, to));
        refuse_if(there == (edit == Edit::Add), 37, from)?;
        Ok((from, to))
    }

    /// Whether the vertex has one different edge.
    pub(crate) fn is_last(&self, game: &Game, source: usize) -> bool {
        if self.falls_for(Trap::LastEdgeByWords) {
            return game.listed.iter().filter(|edge| edge.0 == source).count() == 1;
        }
        game.successors[source].len() == 1
    }

    /// Refusal 39.
    pub(crate) fn room(&self, game: &Game, buffer: usize) -> Result<(), Refusal> {
        refuse_if(game.m() == MOST_EDGES || buffer < game.words() + 2, 39, game.m())
    }

    /// The edges after the edit, in sequence.
    pub(crate) fn listed_after(
        &self,
        edit: Edit,
        edge: (usize, usize),
        listed: &[(usize, usize)],
    ) -> Vec<(usize, usize)> {
        let mut listed = listed.to_vec();
        match edit {
            Edit::Add if self.falls_for(Trap::ArrivesInFront) => listed.insert(0, edge),
            Edit::Add => listed.push(edge),
            Edit::Remove if self.falls_for(Trap::OneCopyRemoved) => {
                let first = listed.iter().position(|&other| other == edge);
                listed.remove(first.expect("the edge is there"));
            }
            Edit::Remove => listed.retain(|&other| other != edge),
        }
        listed
    }
}
