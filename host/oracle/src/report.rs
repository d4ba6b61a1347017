//! What the report program prints.

use crate::{Classes, Game, Oracle, Refusal, Trap};
use std::fmt::Write;

const MOST_WORDS: usize = 9219;

impl Oracle {
    /// The report on a table given as bytes, low byte first.
    pub fn report(&self, bytes: &[u8]) -> String {
        match self.game(&self.words(bytes)) {
            Err(Refusal { number, place }) => format!("refused {number} at {place}\n"),
            Ok(game) => self.report_on(&game),
        }
    }

    fn words(&self, bytes: &[u8]) -> Vec<u16> {
        let whole = bytes.len() - bytes.len() % 2;
        let bytes = if self.falls_for(Trap::HalfWordDropped) { &bytes[..whole] } else { bytes };
        let most = if self.falls_for(Trap::ReportUnlimited) { bytes.len() } else { MOST_WORDS };
        let word = |pair: &[u8]| pair[0] as u16 + 256 * pair.get(1).map_or(0, |&high| high as u16);
        bytes.chunks(2).take(most).map(word).collect()
    }

    fn report_on(&self, game: &Game) -> String {
        let (order, passes) = self.order_of(game);
        let classes = self.classes_of(game, &order);
        let quotient = self.quotient_of(game, &classes);
        let reduced = self.reduced_of(&quotient, &classes, &order);
        let by_m = self.falls_for(Trap::ReportByTable);
        let edges = if by_m { game.m() } else { self.different(game) };
        let mut text = format!("game {} {edges}\n", game.n());
        writeln!(text, "passes {passes}").unwrap();
        writeln!(text, "classes {}", classes.count()).unwrap();
        for (vertex, class) in classes.of.iter().enumerate() {
            writeln!(text, "vertex {vertex} class {class}").unwrap();
        }
        let lines = self.class_lines(&classes, &quotient, &reduced);
        for (class, (members, edges)) in lines.iter().enumerate() {
            writeln!(text, "class {class} members {members} edges {edges}").unwrap();
        }
        let summed = lines.len() - self.falls_for(Trap::ClassLeftOut) as usize;
        let members: usize = lines[..summed].iter().map(|line| line.0).sum();
        let edges: usize = lines[..summed].iter().map(|line| line.1).sum();
        writeln!(text, "total {members} {edges}").unwrap();
        writeln!(text, "reduced {} {}", reduced.n(), reduced.m()).unwrap();
        text
    }

    /// The members of each class, and its edges in the reduced game.
    fn class_lines(
        &self,
        classes: &Classes,
        quotient: &Game,
        reduced: &Game,
    ) -> Vec<(usize, usize)> {
        let game = if self.falls_for(Trap::QuotientEdgesOfClass) { quotient } else { reduced };
        let into = self.falls_for(Trap::EdgesToClass);
        let leaves = |edge: &&(usize, usize), c| if into { edge.1 == c } else { edge.0 == c };
        let alone = self.falls_for(Trap::LowestMemberCounted);
        let members = |c: usize| if alone { 1 } else { classes.members[c].len() };
        let edges = |c: usize| game.edges.iter().filter(|edge| leaves(edge, c)).count();
        (0..classes.count()).map(|c| (members(c), edges(c))).collect()
    }
}
