//! A recorded list of edits, replayed in a table that begins a buffer.

use crate::calls::{refuse_if, Answer, Memory};
use crate::{Edit, Game, Oracle, Refusal, Trap};

const MOST_ENTRIES: usize = 4096;

/// An edge as an entry names it.
type Entry = (usize, usize);

impl Oracle {
    /// The call: each entry's edge arrives in the table that begins `memory.table` if it is absent, and
    /// leaves it if it is present, until an entry is refused.
    pub fn replay(&self, trace: &[u16], memory: &mut Memory) -> Answer {
        let (start, entries) = match self.begun(trace, memory) {
            Ok(begun) => begun,
            Err(refusal) => return self.answer(Err(refusal)),
        };
        let (mut game, mut longest, mut done) = (start.clone(), start.words(), 0);
        let mut verdict = Ok(());
        for entry in entries {
            match self.entered(&game, entry, memory.table.len()) {
                Ok(next) => game = next,
                Err(refusal) => {
                    verdict = Err(refusal);
                    break;
                }
            }
            longest = longest.max(game.words());
            done += 1;
        }
        if verdict.is_err() && self.falls_for(Trap::RefusedEntryUndoesAll) {
            return Answer { entries: done, ..self.answer(verdict.map(|()| Answer::default())) };
        }
        let zeros = if self.falls_for(Trap::ZerosToTheStart) { start.words() } else { longest };
        let mut words = game.table();
        words.resize(words.len().max(zeros), 0);
        self.write(&mut memory.table, &words);
        let classed = if self.falls_for(Trap::OrderOfTheStart) { &start } else { &game };
        let (_, _, counts) = self.write_classes(classed, memory);
        let Answer { vertices, edges, .. } = self.table_counts(&game);
        let refused = verdict.is_err();
        let answer = self.answer(verdict.map(|()| Answer { vertices, edges, ..counts }));
        let entries = match refused {
            true if self.falls_for(Trap::RefusedEntryCounted) => done + 1,
            true if self.falls_for(Trap::EntriesOnAcceptance) => 0,
            _ => done,
        };
        Answer { entries, ..answer }
    }

    /// The start game and the entries, or a refusal before the first of them.
    fn begun(&self, trace: &[u16], memory: &mut Memory) -> Result<(Game, Vec<Entry>), Refusal> {
        let game = self.beginning(&memory.table)?;
        if self.falls_for(Trap::TraceBeforeLengths) {
            self.entries(trace)?;
        }
        self.lengths(&game, memory, 3)?;
        if self.falls_for(Trap::ClassesBeforeTrace) {
            self.write_classes(&game, memory);
        }
        let entries = self.entries(trace)?;
        Ok((game, entries))
    }

    /// The entries of a trace, or refusal 40.
    fn entries(&self, trace: &[u16]) -> Result<Vec<Entry>, Refusal> {
        refuse_if(trace.is_empty(), 40, 0)?;
        let count = trace[0] as usize;
        let longer = self.falls_for(Trap::LongTraceAccepted) && trace.len() > 1 + 2 * count;
        refuse_if(trace.len() != 1 + 2 * count && !longer, 40, 0)?;
        refuse_if(count > MOST_ENTRIES, 40, 0)?;
        let at = |i: usize| trace[i] as usize;
        let parallel = |i| (at(1 + i), at(1 + count + i));
        let paired = |i| (at(1 + 2 * i), at(2 + 2 * i));
        let pairs = self.falls_for(Trap::EntriesInPairs);
        Ok((0..count).map(|i| if pairs { paired(i) } else { parallel(i) }).collect())
    }

    /// The game after an entry, or its refusal.
    fn entered(&self, game: &Game, entry: Entry, buffer: usize) -> Result<Game, Refusal> {
        let (source, target) = entry;
        refuse_if(source >= game.n() || target >= game.n(), 37, source)?;
        let edit = if game.edges.contains(&entry) { Edit::Remove } else { Edit::Add };
        match edit {
            Edit::Add => self.room(game, buffer)?,
            Edit::Remove => refuse_if(self.is_last(game, source), 38, source)?,
        }
        let mut listed = self.listed_after(edit, entry, &game.listed);
        if edit == Edit::Remove && self.falls_for(Trap::ToggledByCopy) {
            listed = game.listed.clone();
            let first = listed.iter().position(|&other| other == entry);
            listed.remove(first.expect("the edge is there"));
        }
        Ok(Game::new(game.priority.clone(), game.owner.clone(), listed))
    }
}
