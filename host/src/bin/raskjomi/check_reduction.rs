//! The command that checks a reduction of a game of any size.

use crate::arguments::Arguments;
use crate::check_solution::{certificate_files, grouped, unsaved};
use crate::commands::Written;
use crate::failure::Failure;
use crate::help::{Command, Opt};
use crate::large::{self, Loaded};
use crate::progress::watch;
use crate::source::Source;
use raskjomi::formats::json::{self, Value};
use raskjomi::large::{read_words, GameFile};
use raskjomi::{large_reduction, LargeReduction, Misfit, Refusal, Unreduced};
use std::fs::File;
use std::io::BufWriter;

/// It comes after the check of solutions.
pub const COMMANDS: [Command; 1] = [Command {
    name: "check-reduction",
    usage: "check-reduction GAME REDUCED CLASSES [--certificate FILE | --save-certificate FILE] [--json]",
    summary: "whether another game and a class for each vertex are a reduction of a game of any size",
    details:
        "REDUCED is a game whose vertices are the classes, with its edges by ascending source, each once. CLASSES has for each vertex of GAME, \
         by ascending id, the number of its class: the place of the class among the vertices of REDUCED, from 0; `reduce --classes` writes such a \
         file. From the files a certificate is made, by which a proved check judges the reduction in one pass. Where it is right, the output \
         begins with `right`: then each vertex has the winner of its class. Where it is wrong, the message says why: a vertex and its class \
         differ in priority, in owner where the class has two edges or more, or in the classes that their moves lead to. Such a reduction merges \
         vertices by their moves; one that `reduce` makes of a game within the limits by the order is none, and needs no check. \
         --save-certificate keeps the certificate of a right reduction, and --certificate takes a kept one: docs/LARGE.md has its form.",
    example: "./raskjomi check-reduction games/lift-doors.txt games/lift-doors.merged.txt games/lift-doors.classes.txt",
    files: 3..=3,
    options: &[
        Opt { name: "--certificate", value: Some("a file") },
        Opt { name: "--save-certificate", value: Some("a file") },
        Opt { name: "--json", value: None },
    ],
    run: check_reduction,
}];

/// The files of a reduction.
struct Files {
    game: Loaded,
    reduced: Loaded,
    classes_name: String,
    classes: Vec<u32>,
}

/// `check-reduction`.
fn check_reduction(arguments: &Arguments) -> Written {
    let (from, to) = certificate_files(arguments);
    let sources = [0, 1, 2].map(|index| arguments.file(index));
    let files = Files::load(sources)?;
    let reduction = match from {
        Some(path) => files.read(path)?,
        None => files.made(arguments.has("--json"))?,
    };
    let checking = watch("the check");
    let verdict = files.game.game.check_reduction(&reduction);
    drop(checking);
    verdict.map_err(|refusal| files.refused(refusal, from))?;
    if let Some(path) = to {
        File::create(path)
            .and_then(|file| reduction.save(BufWriter::new(file), &files.game.game))
            .map_err(|error| unsaved(path, &error))?;
    }
    Ok(match arguments.has("--json") {
        true => format!("{}\n", files.value()).into(),
        false => files.text().into(),
    })
}

/// Where the highest priority decides in the file of a game, any even number that is high enough serves to turn its priorities round. Takes one by
/// which a class has this priority, if there is one.
fn align(read: &mut GameFile, class: u32, priority: u32) {
    let n = read.words[0] as usize;
    let (Some(even), true) = (read.even, (class as usize) < n) else { return };
    let more = i64::from(priority) - i64::from(read.words[2 + class as usize]);
    let turned = |&word: &u32| u32::try_from(i64::from(word) + more);
    let priorities: Result<Vec<u32>, _> = read.words[2..2 + n].iter().map(turned).collect();
    if let (Ok(priorities), 0) = (priorities, more % 2) {
        read.words[2..2 + n].copy_from_slice(&priorities);
        read.even = even.checked_add_signed(more);
    }
}

impl Files {
    fn load([of_game, of_reduced, of_classes]: [Source; 3]) -> Result<Files, Failure> {
        let game = Loaded::load(of_game)?;
        let mut read = large::file(of_reduced, large::opened(of_reduced)?)?;
        // The check has numbers of its own for what is wrong with the reduced game; 97 and those behind it are told later.
        match large_reduction(game.game.words(), &read.words, &[], &[]) {
            Err(refusal) if refusal.number < 97 => {
                return Err(large::game_refused(refusal, &of_reduced.name()));
            }
            _ => (),
        }
        let (classes_name, _watch) = (of_classes.name(), watch("the file of the classes"));
        let classes = read_words(large::opened(of_classes)?, of_classes.form)
            .map_err(|error| Failure::usage(format!("{classes_name}: {error}")))?;
        let first = classes.first().copied().unwrap_or_default();
        align(&mut read, first, game.game.priority(0));
        let reduced = Loaded::of(of_reduced.name(), read)?;
        Ok(Files { game, reduced, classes_name, classes })
    }

    /// The reduction with the certificate that this program makes.
    fn made(&self, json: bool) -> Result<LargeReduction, Failure> {
        let _watch = watch("the certificate");
        let (reduced, classes) = (self.reduced.game.clone(), self.classes.clone());
        self.game.game.certify_reduction(reduced, classes).map_err(|why| match why {
            Unreduced::Misfit(misfit) => self.misfit(&misfit, json),
            Unreduced::Refused(refusal) => self.refused(refusal, None),
            other => Failure::usage(format!("{}: {other}", self.classes_name)),
        })
    }

    /// The reduction with a certificate that was saved.
    fn read(&self, path: &str) -> Result<LargeReduction, Failure> {
        let source = Source { path: path.as_ref(), lowest: false, form: None, reachable: None };
        let input = large::opened(source)?;
        let _watch = watch("the certificate's file");
        let (reduced, classes) = (self.reduced.game.clone(), self.classes.clone());
        LargeReduction::load(input, &self.game.game, reduced, classes)
            .map_err(|error| Failure::usage(format!("{}: {error}", source.name())))
    }

    /// A refusal of the reduced game, of the classes, of a certificate from a file, or of one that was made.
    fn refused(&self, refusal: Refusal, certificate: Option<&str>) -> Failure {
        let file = match refusal.number {
            0..=97 => &self.reduced.name,
            98..=100 => &self.classes_name,
            _ => certificate.unwrap_or("the certificate that was made"),
        };
        let remedy = match (refusal.number, certificate) {
            (102.., Some(_)) => {
                "the certificate isn't one of this reduction, which may be right: leave --certificate out, so that one is made or the reason \
                 told"
            }
            (101.., None) => {
                "the fault is this program's, and the reduction may be right: tell its makers of the files"
            }
            _ => refusal.explanation().remedy,
        };
        let place = self.place(refusal);
        Failure::refused(refusal, format!("{file}: {place}: {refusal}; {remedy}")).with_verdict()
    }

    fn place(&self, Refusal { number, place, .. }: Refusal) -> String {
        let vertex = || format!("vertex {}", self.game.vertices.label(place as u32));
        match number {
            97 => self.reduced.edge(place),
            98 => format!(
                "{place} words, and the game has {} vertices",
                self.game.game.size().vertices
            ),
            99 => format!("{}, class {}", vertex(), self.classes[place]),
            100 | 104 | 105 => vertex(),
            102 => format!("class {}", self.reduced.vertices.label(place as u32)),
            103 | 106 => self.game.edge(place),
            _ => format!("place {place}"),
        }
    }

    /// What is no reduction.
    fn misfit(&self, misfit: &Misfit, json: bool) -> Failure {
        let label = |vertex: u32| self.game.vertices.label(vertex);
        let class = |class: u32| self.reduced.vertices.label(class);
        let told =
            misfit.told(label, class, |(p, q)| (self.game.priority(p), self.reduced.priority(q)));
        let message = format!("{}: wrong: {told}; {}", self.classes_name, misfit.remedy());
        let (what, number) = misfit.at();
        if json {
            let value = json::object([
                ("accepted", Value::Bool(false)),
                ("refusal", Value::Null),
                ("message", Value::from(&*message)),
                (what, Value::from(number as usize)),
            ]);
            return Failure::told(format!("{value}\n"), message, 1);
        }
        let at = match what {
            "vertex" => label(number),
            "class" => class(number),
            _ => number.to_string(),
        };
        Failure::told(format!("wrong at {} {at}\n", what.replace('_', " ")), message, 1)
    }

    fn text(&self) -> String {
        let [n, k] = [&self.game, &self.reduced].map(|of| of.game.size().vertices);
        let [vertices, classes] =
            [if n == 1 { "vertex" } else { "vertices" }, if k == 1 { "class" } else { "classes" }];
        format!("right: {} {vertices} in {} {classes}\n", grouped(n), grouped(k))
    }

    fn value(&self) -> Value {
        let [of_game, of_reduced] = [&self.game, &self.reduced].map(|of| of.game.size());
        json::object([
            ("accepted", Value::Bool(true)),
            ("vertices", Value::from(of_game.vertices)),
            ("edges", Value::from(of_game.edges)),
            ("classes", Value::from(of_reduced.vertices)),
            ("reduced_edges", Value::from(of_reduced.edges)),
        ])
    }
}
