//! The winners of a game, as `winners` tells them.

use crate::check_solution::{grouped, summary, winner, won};
use crate::commands::Written;
use crate::failure::Failure;
use crate::large::{Loaded, Solved};
use raskjomi::formats::json::{self, Value};
use raskjomi::large::{write_solution, NO_WINNER};
use raskjomi::{LargeSolution, Player};
use std::fmt::Write;

/// A game with the winner at each vertex, and the class that tells it.
pub struct Answered {
    of: Loaded,
    winners: Vec<u32>,
    classes: Vec<u32>,
    /// The solution of the game itself, where there is one, which is checked.
    solution: Option<LargeSolution>,
    /// Why a class is not shown, where classes are not; else nothing.
    open: Vec<Option<String>>,
}

impl Answered {
    /// Each vertex has the winner of its class.
    pub fn by_classes(of: Loaded, classes: Vec<u32>, of_classes: &[u32]) -> Answered {
        let winners = classes.iter().map(|&class| of_classes[class as usize]).collect();
        Answered { of, winners, classes, solution: None, open: Vec::new() }
    }

    /// By a solution of the game itself.
    pub fn lifted(solved: Solved, classes: Vec<u32>) -> Answered {
        let winners = solved.winners().to_vec();
        let Solved { of, solution, .. } = solved;
        Answered { of, winners, classes, solution: Some(solution), open: Vec::new() }
    }

    /// As by classes, but for those that the solution leaves open: each comes to a class that has no line.
    pub fn by_some_classes(
        of: Loaded,
        classes: Vec<u32>,
        solved: &Solved,
        open: &[Option<u32>],
    ) -> Answered {
        let label = |class: u32| solved.of.vertices.label(class);
        let why = |class: u32, end: u32| match class == end {
            true => format!("{} has no line for class {}", solved.name, label(class)),
            false => format!(
                "by {} a play from class {} can come to class {}, for which it has no line",
                solved.name,
                label(class),
                label(end)
            ),
        };
        let whys = (0..).zip(open).map(|(class, &end)| Some(why(class, end?))).collect();
        let of_classes = solved.winners().iter().zip(open);
        let of_classes = of_classes.map(|(&winner, open)| open.map_or(winner, |_| NO_WINNER));
        let answered = Answered::by_classes(of, classes, &of_classes.collect::<Vec<u32>>());
        Answered { open: whys, ..answered }
    }

    /// Why a vertex is not shown, where it isn't.
    fn why(&self, vertex: u32) -> Option<&str> {
        self.open.get(self.classes[vertex as usize] as usize)?.as_deref()
    }

    /// The winner at a vertex, where it is shown.
    pub fn winner(&self, vertex: u32) -> Option<Player> {
        self.why(vertex).is_none().then(|| match self.winners[vertex as usize] {
            raskjomi::ODD => Player::Odd,
            _ => Player::Even,
        })
    }

    /// Who wins at a vertex, or why that is not shown.
    pub fn told(&self, vertex: u32) -> String {
        match (self.why(vertex), self.classes[vertex as usize]) {
            (Some(why), _) => format!("not shown: {why}"),
            (None, class) => format!("{} wins, as in class {class}", winner(&self.winners, vertex)),
        }
    }

    /// The number of vertices that are not shown.
    fn not_shown(&self) -> usize {
        self.winners.iter().filter(|&&winner| winner == NO_WINNER).count()
    }

    /// An output that answers every vertex, or leaves some open.
    pub fn answer(&self, output: String) -> Written {
        match self.not_shown() {
            0 => Ok(output.into()),
            _ => Err(Failure::not_shown(output)),
        }
    }

    /// A line for each vertex, under one for all.
    pub fn text(&self) -> String {
        let mut text = summary(&self.winners);
        if self.not_shown() > 0 {
            text.truncate(text.trim_end().len());
            text += &format!("; not shown: {}\n", grouped(self.not_shown()));
        }
        for vertex in 0..self.classes.len() as u32 {
            let label = self.of.vertices.label(vertex);
            writeln!(text, "vertex {label}: {}", self.told(vertex)).expect("a string takes all");
        }
        text
    }

    /// The same as a value.
    pub fn value(&self) -> Value {
        let at = |(vertex, &class): (u32, &u32)| {
            let class = ("class", Value::from(class as usize));
            let told = match self.why(vertex) {
                Some(why) => vec![class, ("winner", Value::Null), ("why", Value::from(why))],
                None => vec![class, ("winner", Value::from(winner(&self.winners, vertex)))],
            };
            json::object(self.of.vertex_fields(vertex).into_iter().chain(told))
        };
        let size = self.of.game.size();
        json::object([
            ("accepted", Value::Bool(true)),
            ("vertices", Value::from(size.vertices)),
            ("edges", Value::from(size.edges)),
            ("even_wins", Value::from(won(&self.winners, Player::Even))),
            ("odd_wins", Value::from(won(&self.winners, Player::Odd))),
            ("not_shown", Value::from(self.not_shown())),
            ("at", Value::List((0..).zip(&self.classes).map(at).collect())),
        ])
    }

    /// The solution of the game, in PGSolver's format.
    pub fn solution(&self) -> Written {
        let Some(solution) = &self.solution else { return Err(self.without_solution()) };
        let mut bytes = Vec::new();
        write_solution(&mut bytes, self.of.game.words(), solution.words(), &self.of.vertices)
            .map_err(|error| Failure::usage(format!("{}: {error}", self.of.name)))?;
        Ok(bytes)
    }

    /// There is no solution of a game where some vertices are not shown.
    fn without_solution(&self) -> Failure {
        let why = self.open.iter().flatten().next().map(String::as_str).unwrap_or_default();
        let message = format!(
            "{}: no solution is written, as {} of {} vertices are not shown: {why}; solve the whole reduced game, or leave --as out",
            self.of.name,
            grouped(self.not_shown()),
            grouped(self.winners.len())
        );
        Failure::told(String::new(), message, 4)
    }
}
