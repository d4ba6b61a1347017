//! Plans, judged and carried, and the verdict by one.

use super::{part, word, Game, Memory};
use crate::{Player, Refusal, Verdict, MOST_PLAN_WORDS};

/// A plan by its words, which no call has judged yet.
///
/// ```
/// use raskjomi::{Game, Plan, Player};
/// let game = Game::new(vec![2, 3, 0, 1, 0, 0, 0, 0, 1, 0, 1, 1])?;
/// // Round at vertex 0.
/// let plan = Plan::new(&[0], &[(0, 0)]);
/// assert!(game.accept_plan(Player::Even, &plan).is_ok());
/// assert_eq!(game.accept_plan(Player::Odd, &plan).unwrap_err().number, 15);
/// # Ok::<(), raskjomi::Refusal>(())
/// ```
#[derive(Clone, Debug, PartialEq, Eq)]
pub struct Plan {
    words: Vec<u16>,
}

impl Plan {
    /// The plan with these positions, each given by its vertex, and links between positions.
    ///
    /// ```
    /// // From vertex 3 to vertex 1, and round there.
    /// let plan = raskjomi::Plan::new(&[3, 1], &[(0, 1), (1, 1)]);
    /// assert_eq!(plan.words(), [2, 2, 3, 1, 0, 1, 1, 1]);
    /// ```
    pub fn new(positions: &[u16], links: &[(u16, u16)]) -> Plan {
        let sizes = [word(positions.len()), word(links.len())];
        let (sources, targets): (Vec<u16>, Vec<u16>) = links.iter().copied().unzip();
        Plan { words: [&sizes, positions, &sources, &targets].concat() }
    }

    /// The plan of words from elsewhere.
    ///
    /// ```
    /// assert_eq!(raskjomi::Plan::from_words(vec![1, 1, 3, 0, 0]).start(), Some(3));
    /// ```
    pub fn from_words(words: Vec<u16>) -> Plan {
        Plan { words }
    }

    /// Its words.
    ///
    /// ```
    /// assert_eq!(raskjomi::Plan::new(&[3], &[(0, 0)]).words(), [1, 1, 3, 0, 0]);
    /// ```
    pub fn words(&self) -> &[u16] {
        &self.words
    }

    /// The vertex of each position, as far as the words have it.
    ///
    /// ```
    /// let plan = raskjomi::Plan::new(&[3, 1], &[(0, 1), (1, 1)]);
    /// assert_eq!(plan.positions(), [3, 1]);
    /// ```
    pub fn positions(&self) -> &[u16] {
        part(&self.words, 2, self.count(0))
    }

    /// The vertex that it starts at, that of position 0.
    ///
    /// ```
    /// assert_eq!(raskjomi::Plan::new(&[3, 1], &[(0, 1), (1, 1)]).start(), Some(3));
    /// assert_eq!(raskjomi::Plan::new(&[], &[]).start(), None);
    /// ```
    pub fn start(&self) -> Option<u16> {
        self.positions().first().copied()
    }

    /// The links between positions, as far as the words have them.
    ///
    /// ```
    /// let plan = raskjomi::Plan::new(&[3, 1], &[(0, 1), (1, 1)]);
    /// assert!(plan.links().eq([(0, 1), (1, 1)]));
    /// ```
    pub fn links(&self) -> impl Iterator<Item = (u16, u16)> + '_ {
        let (p, l) = (self.count(0), self.count(1));
        let [sources, targets] = [2 + p, 2 + p + l].map(|from| part(&self.words, from, l));
        sources.iter().copied().zip(targets.iter().copied())
    }

    /// One of the two sizes that the words begin with.
    fn count(&self, index: usize) -> usize {
        self.words.get(index).copied().unwrap_or_default().into()
    }
}

impl Game {
    /// Judges a plan for a player.
    ///
    /// ```
    /// use raskjomi::{Game, Plan, Player};
    /// let game: Game = "3 3 / 0 1 0 / 0 0 1 / 0 1 2 / 1 1 1".parse()?;
    /// let plan = Plan::new(&[0, 1], &[(0, 1), (1, 1)]);
    /// game.accept_plan(Player::Odd, &plan)?;
    /// assert_eq!(game.accept_plan(Player::Even, &plan).unwrap_err().number, 16);
    /// # Ok::<(), Box<dyn std::error::Error>>(())
    /// ```
    ///
    /// # Errors
    ///
    /// Refusals 12 to 16, as [`accept_plan`](crate::accept_plan) has them.
    pub fn accept_plan(&self, player: Player, plan: &Plan) -> Result<(), Refusal> {
        crate::accept_plan(self.words(), player, plan.words())
    }

    /// A player's plan carried to a vertex.
    ///
    /// ```
    /// use raskjomi::{Game, Plan, Player};
    /// let game: Game = "3 3 / 0 1 0 / 0 0 1 / 0 1 2 / 1 1 1".parse()?;
    /// // Odd wins from 0, and 2 is below it.
    /// let plan = Plan::new(&[0, 1], &[(0, 1), (1, 1)]);
    /// assert_eq!(game.carry(Player::Odd, &plan, 2)?.start(), Some(2));
    /// # Ok::<(), Box<dyn std::error::Error>>(())
    /// ```
    ///
    /// # Errors
    ///
    /// Refusals 12 to 16, 33 and 34, as [`carry`](crate::carry()) has them.
    pub fn carry(&self, player: Player, plan: &Plan, vertex: u32) -> Result<Plan, Refusal> {
        let Memory { mut marks, mut spare, .. } = Memory::of(self);
        let (game, plan, mut words) = (self.words(), plan.words(), vec![0; MOST_PLAN_WORDS]);
        let size = crate::carry(game, player, plan, vertex, &mut marks, &mut spare, &mut words)?;
        words.truncate(size.words());
        Ok(Plan { words })
    }

    /// A player's plan on the reduced game carried to a vertex of this one.
    ///
    /// ```
    /// use raskjomi::{Game, Plan, Player};
    /// let game: Game = "3 3 / 0 1 0 / 0 0 1 / 0 1 2 / 1 1 1".parse()?;
    /// // Vertices 0 and 2 are class 0.
    /// let plan = Plan::new(&[0, 1], &[(0, 1), (1, 1)]);
    /// let carried = game.carry_class(Player::Odd, &plan, 2)?;
    /// game.accept_plan(Player::Odd, &carried)?;
    /// # Ok::<(), Box<dyn std::error::Error>>(())
    /// ```
    ///
    /// # Errors
    ///
    /// Refusals 12 to 16, 33 and 34, as [`carry_class`](crate::carry_class()) has them.
    pub fn carry_class(&self, player: Player, plan: &Plan, vertex: u32) -> Result<Plan, Refusal> {
        let mut memory = Memory::of(self);
        let mut words = vec![0; MOST_PLAN_WORDS];
        let (_, size) = crate::carry_class(
            self.words(),
            player,
            plan.words(),
            vertex,
            &mut memory.marks,
            &mut memory.spare,
            &mut memory.classes,
            &mut memory.table,
            &mut words,
        )?;
        words.truncate(size.words());
        Ok(Plan { words })
    }

    /// The verdict on a player and a vertex, by a plan on the reduced game.
    ///
    /// [`Verdict::Refused`] has refusals 12 to 16 and 33, as [`verdict`](crate::verdict()) has them.
    ///
    /// ```
    /// use raskjomi::{Game, Plan, Player, Verdict};
    /// // Vertices 0 and 2 share class 0, and lead to vertex 1, which has priority 1 and leads to itself.
    /// let game = Game::new(vec![3, 3, 0, 1, 0, 0, 0, 1, 0, 1, 2, 1, 1, 1])?;
    /// let plan = Plan::new(&[0, 1], &[(0, 1), (1, 1)]);
    /// assert!(matches!(game.verdict(2, Player::Odd, &plan), Verdict::Wins(_)));
    /// assert!(matches!(game.verdict(1, Player::Odd, &plan), Verdict::NotShown(_)));
    /// assert!(matches!(game.verdict(2, Player::Even, &plan), Verdict::Refused(_)));
    /// # Ok::<(), raskjomi::Refusal>(())
    /// ```
    pub fn verdict(&self, vertex: u32, player: Player, plan: &Plan) -> Verdict {
        let mut memory = Memory::of(self);
        crate::verdict(
            self.words(),
            vertex,
            player,
            plan.words(),
            &mut memory.marks,
            &mut memory.spare,
            &mut memory.classes,
            &mut memory.table,
        )
    }
}
