//! Everything that the page shows, worked out once.

use super::pairs::Apart;
use super::reasons::Pair;
use super::sha256;
use super::winners::{self, Winners};
use crate::arguments::Arguments;
use crate::commands::reduced_of;
use crate::dropped::{below, edges, fault, Dropped};
use crate::failure::Failure;
use crate::game_input::GameInput;
use crate::graph::Graph;
use crate::input::{Input, Unit};
use crate::source::Source;
use crate::why::{Explained, Question};
use raskjomi::formats::{is_binary, Vertices};
use raskjomi::{Game, Player};

/// A vertex, or a class, as the page names it.
pub struct Vertex {
    /// The id in the file, or the number.
    pub id: u32,
    pub label: String,
    pub name: Option<String>,
    /// The priority as the file has it.
    pub priority: u32,
    pub owner: Player,
}

/// The file that the game comes from.
pub struct File {
    pub name: String,
    /// How a command line names it, and with the options that say how it is read.
    pub path: String,
    pub words: String,
    pub bytes: usize,
    pub fingerprint: String,
    pub format: &'static str,
    /// Which priority decides in it.
    pub decides: String,
}

/// An edge of the game to a class that other members of its source's class have no edge to.
pub struct Alone {
    pub source: usize,
    pub target: usize,
    /// Where the reduced game has an edge to, that serves the owner of the source at least as well.
    pub better: usize,
    /// The pair of the order that says so.
    pub pair: Pair,
}

/// The game, its reduced game, and what is known of both.
pub struct Facts {
    pub file: File,
    pub game: GameInput,
    explained: Explained,
    pub vertices: Vec<Vertex>,
    /// The class of each vertex, and the vertices of each class.
    pub classes: Vec<usize>,
    pub members: Vec<Vec<usize>>,
    /// The reduced game, whose vertices are the classes.
    pub reduced: Graph,
    /// The edges between classes that the reduced game drops, and what classes are called.
    pub dropped: Vec<Dropped>,
    pub class_names: Vertices,
    /// The edges of the game whose classes have no edge in the reduced game, and those of them that the quotient doesn't have, either.
    pub dashed: Vec<(usize, usize)>,
    pub alone: Vec<Alone>,
    pub pairs: Apart,
    pub winners: Option<Winners>,
}

impl Facts {
    /// Reads what the command line names, and works everything out.
    pub fn gather(arguments: &Arguments) -> Result<Facts, Failure> {
        let source = arguments.file(0);
        let (bytes, input) = Input::game_and_bytes(source)?;
        let file = File::new(source, &bytes, &input);
        let game = GameInput::of(input)?;
        let explained = Explained::new(&game.game)?;
        let question = explained.question(game.vertices());
        let merged = reduced_of(&game.game);
        let (dropped, class_names) = edges(&game.game, &question)?;
        let members = merged.members();
        let mut facts = Facts {
            file,
            vertices: vertices(&game.game, &question),
            classes: merged.classes.iter().map(|&class| class.into()).collect(),
            reduced: Graph::new(&merged.game),
            dropped,
            class_names,
            dashed: Vec::new(),
            alone: Vec::new(),
            pairs: Apart::new(arguments, &game, question.graph, &members)?,
            winners: winners::known(arguments, &bytes, &game, &merged)?,
            members,
            explained,
            game,
        };
        facts.dashed = facts.game.game.edges().filter(|&edge| !facts.is_kept(edge)).collect();
        facts.alone = facts.alone()?;
        Ok(facts)
    }

    /// Whether the classes of an edge have one in the reduced game.
    fn is_kept(&self, (source, target): (usize, usize)) -> bool {
        self.reduced.successors[self.classes[source]].contains(&self.classes[target])
    }

    /// What may be asked of pairs.
    pub fn question(&self) -> Question<'_> {
        self.explained.question(self.game.vertices())
    }

    /// The edges that aren't in the reduced game, though it drops none between their classes.
    fn alone(&self) -> Result<Vec<Alone>, Failure> {
        let is_dropped = |&(source, target): &(usize, usize)| {
            let ends = [source, target].map(|vertex| self.classes[vertex]);
            self.dropped.iter().any(|edge| [edge.source, edge.target] == ends)
        };
        let edges = self.dashed.iter().filter(|edge| !is_dropped(edge));
        edges.map(|&(source, target)| self.served(source, target)).collect()
    }

    /// The edge with a move of its source that the reduced game has an edge for, and that serves the owner at least as well.
    fn served(&self, source: usize, target: usize) -> Result<Alone, Failure> {
        let (question, player) = (self.question(), self.game.game.owner(source));
        let others = question.graph.successors[source].iter().copied();
        let mut others = others.filter(|&other| self.is_kept((source, other)));
        let found = others.find_map(|better| {
            let pair = below(player, target, better);
            question.is_below(pair.0, pair.1).then_some(Alone { source, target, better, pair })
        });
        found.ok_or_else(|| fault(source, target))
    }

    /// The vertices that another one represents.
    pub fn merged(&self) -> impl Iterator<Item = usize> + '_ {
        (0..self.classes.len()).filter(|&vertex| self.lowest(vertex) != vertex)
    }

    /// The vertex that stands for a vertex in the reduced game.
    pub fn lowest(&self, vertex: usize) -> usize {
        self.members[self.classes[vertex]][0]
    }

    /// The anchor of a vertex.
    pub fn anchor(&self, vertex: usize) -> String {
        format!("vertex-{}", self.vertices[vertex].id)
    }

    /// The number of edges of the reduced game.
    pub fn reduced_edges(&self) -> usize {
        self.reduced.successors.iter().map(Vec::len).sum()
    }
}

fn vertices(game: &Game, question: &Question) -> Vec<Vertex> {
    let named = question.vertices;
    let vertex = |vertex: usize| Vertex {
        id: named.id(vertex),
        label: named.label(vertex),
        name: named.name(vertex),
        priority: question.priority(vertex),
        owner: game.owner(vertex),
    };
    game.vertices().map(vertex).collect()
}

impl File {
    fn new(source: Source, bytes: &[u8], input: &Input) -> File {
        let (even, of_pgsolver) = (input.vertices.even(), input.vertices.of_pgsolver());
        File {
            name: input.name.clone(),
            path: source.path_quoted(),
            words: source.words(),
            bytes: bytes.len(),
            fingerprint: sha256::sum(bytes),
            format: match is_binary(bytes, Unit::Word, source.form) {
                _ if of_pgsolver => "PGSolver's format",
                Ok(true) => "binary",
                _ => "decimal text",
            },
            decides: match even {
                Some(even) => format!(
                    "the highest priority decides in the file; it was converted, where a priority p becomes {even} - p and the lowest \
                     decides, and is shown here as the file has it"
                ),
                None => "the lowest priority decides".into(),
            },
        }
    }
}
