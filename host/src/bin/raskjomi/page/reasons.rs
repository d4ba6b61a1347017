//! The reasons that the page gives, each once: those of the pairs that it shows, then those of the pairs that these name, as far
//! as there is room.

use super::facts::Facts;
use super::html::{element, line, link, plain, text, Html};
use crate::reason::Reason;
use std::collections::{HashSet, VecDeque};

/// A pair of vertices: whether the first is below the second.
pub type Pair = (usize, usize);

/// At most so many pairs are named by a reason: the first of these numbers under which there is room for all that is asked.
const MOST_NAMED: [usize; 4] = [512, 64, 16, 4];

/// The reasons on the page.
pub struct Reasons<'a> {
    facts: &'a Facts,
    most_named: usize,
    /// The pairs whose reasons are on the page, in the sequence in which they were found.
    pairs: Vec<Pair>,
    included: HashSet<Pair>,
    /// Those whose place on the page is found.
    placed: HashSet<Pair>,
}

impl<'a> Reasons<'a> {
    /// No reasons.
    pub fn none(facts: &'a Facts) -> Reasons<'a> {
        let (most_named, pairs) = (0, Vec::new());
        Reasons { facts, most_named, pairs, included: HashSet::new(), placed: HashSet::new() }
    }

    /// The reasons of these pairs, and of those that they name, within so many bytes.
    pub fn new(facts: &'a Facts, asked: &[Pair], room: usize) -> Reasons<'a> {
        let mut reasons = Reasons::none(facts);
        for most in MOST_NAMED {
            reasons.most_named = most;
            let all: usize = asked.iter().map(|&pair| reasons.size(&reasons.reason(pair))).sum();
            if all <= room {
                break;
            }
        }
        reasons.include(asked, room);
        reasons
    }

    /// Includes what there is room for, breadth first.
    fn include(&mut self, asked: &[Pair], mut room: usize) {
        let mut found: HashSet<Pair> = HashSet::new();
        let mut next: VecDeque<Pair> =
            asked.iter().copied().filter(|&pair| found.insert(pair)).collect();
        while let Some(pair) = next.pop_front() {
            let reason = self.reason(pair);
            let size = self.size(&reason);
            if size > room {
                return;
            }
            room -= size;
            self.included.insert(pair);
            self.pairs.push(pair);
            let named = reason.rests_on.iter().take(self.most_named);
            next.extend(named.filter(|&&named| found.insert(named)));
        }
    }

    /// The bytes that a reason takes as an item of a list, with a link from each pair that it names.
    fn size(&self, reason: &Reason) -> usize {
        plain("li", self.paragraph(reason, |_| true)).len()
    }

    fn reason(&self, (v, w): Pair) -> Reason {
        self.facts.question().reason(v, w)
    }

    /// A reason in a paragraph, as `why` says it, with a link where the reason of a pair that it names is on the page.
    fn paragraph(&self, reason: &Reason, has: impl Fn(&Pair) -> bool) -> Html {
        let (question, pair) = (self.facts.question(), (reason.v, reason.w));
        let opening = reason.opening(&question);
        let mut said = text(format!("{} {opening}", question.claim(reason.v, reason.w)));
        for (i, named) in reason.rests_on.iter().take(self.most_named).enumerate() {
            let phrase = text(question.said(named.0, named.1));
            said.push(text(if i > 0 { ", " } else { " " }));
            said.push(match has(named) {
                true => link(&self.anchor(*named), phrase),
                false => element("span", &[("class", "pair")], phrase),
            });
        }
        match reason.rests_on.len().saturating_sub(self.most_named) {
            0 if reason.rests_on.is_empty() => (),
            0 => said.push(text(".")),
            left => {
                said.push(text(format!(", and {left} more pairs, which are named by ")));
                said.push(self.command(pair));
            }
        }
        element("p", &[("id", &self.anchor(pair)), ("class", "reason")], said)
    }

    /// The reason that is on the page.
    fn whole(&self, pair: Pair) -> Html {
        self.paragraph(&self.reason(pair), |named| self.included.contains(named))
    }

    fn anchor(&self, (v, w): Pair) -> String {
        let [v, w] = [v, w].map(|vertex| self.facts.vertices[vertex].id);
        format!("why-{v}-{w}")
    }

    /// The command that gives the reason of a pair.
    fn command(&self, (v, w): Pair) -> Html {
        let [v, w] = [v, w].map(|vertex| self.facts.vertices[vertex].id);
        line("code", format!("raskjomi why {} {v} {w}", self.facts.file.words))
    }

    /// The reason of a pair, where it is asked for: in full at the first place, then by a link.
    pub fn of(&mut self, pair: Pair) -> Html {
        if !self.included.contains(&pair) {
            let claim = self.facts.question().claim(pair.0, pair.1);
            let said =
                text(format!("{claim} The reason has no room on this page, and is given by "));
            return element("p", &[("class", "reason")], [said, self.command(pair)]);
        }
        if !self.placed.insert(pair) {
            let claim = self.facts.question().claim(pair.0, pair.1);
            return element("p", &[("class", "reason")], link(&self.anchor(pair), text(claim)));
        }
        self.whole(pair)
    }

    /// The reasons that have no place yet.
    pub fn rest(&self) -> Vec<Html> {
        let rest = self.pairs.iter().filter(|pair| !self.placed.contains(pair));
        rest.map(|&pair| plain("li", self.whole(pair))).collect()
    }
}
