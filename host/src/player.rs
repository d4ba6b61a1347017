//! The two players.

use std::fmt;
use std::str::FromStr;

/// The player for whom an even lowest priority wins.
pub const EVEN: u32 = 0;
/// The player for whom an odd lowest priority wins.
pub const ODD: u32 = 1;

/// A player of a parity game.
#[derive(Clone, Copy, Debug, PartialEq, Eq, Hash, PartialOrd, Ord)]
pub enum Player {
    /// The player for whom an even lowest priority wins.
    Even,
    /// The player for whom an odd lowest priority wins.
    Odd,
}

impl Player {
    /// The other player.
    ///
    /// ```
    /// assert_eq!(raskjomi::Player::Even.opponent(), raskjomi::Player::Odd);
    /// ```
    pub fn opponent(self) -> Player {
        match self {
            Player::Even => Player::Odd,
            Player::Odd => Player::Even,
        }
    }
}

/// The player's number in tables and calls: [`EVEN`] or [`ODD`].
impl From<Player> for u32 {
    fn from(player: Player) -> u32 {
        match player {
            Player::Even => crate::EVEN,
            Player::Odd => crate::ODD,
        }
    }
}

/// The player of a number, if it is 0 or 1; else the number.
///
/// ```
/// use raskjomi::Player;
/// assert_eq!(Player::try_from(1), Ok(Player::Odd));
/// assert_eq!(Player::try_from(2), Err(2));
/// ```
impl TryFrom<u32> for Player {
    type Error = u32;

    fn try_from(number: u32) -> Result<Player, u32> {
        match number {
            crate::EVEN => Ok(Player::Even),
            crate::ODD => Ok(Player::Odd),
            _ => Err(number),
        }
    }
}

/// The player of a name, as it is printed or in small letters, or of a number.
///
/// ```
/// use raskjomi::Player;
/// assert_eq!(["Even", "odd", "0"].map(str::parse), [Ok(Player::Even), Ok(Player::Odd), Ok(Player::Even)]);
/// let error = "white".parse::<Player>().unwrap_err();
/// assert_eq!(error.to_string(), "no player `white`; write even or odd");
/// ```
impl FromStr for Player {
    type Err = NoPlayer;

    fn from_str(name: &str) -> Result<Player, NoPlayer> {
        match name {
            "even" | "Even" | "0" => Ok(Player::Even),
            "odd" | "Odd" | "1" => Ok(Player::Odd),
            _ => Err(NoPlayer(name.into())),
        }
    }
}

/// A word that names no player.
#[derive(Clone, Debug, PartialEq, Eq)]
pub struct NoPlayer(String);

impl fmt::Display for NoPlayer {
    fn fmt(&self, f: &mut fmt::Formatter) -> fmt::Result {
        write!(f, "no player `{}`; write even or odd", self.0)
    }
}

impl std::error::Error for NoPlayer {}

impl fmt::Display for Player {
    fn fmt(&self, f: &mut fmt::Formatter) -> fmt::Result {
        f.write_str(match self {
            Player::Even => "Even",
            Player::Odd => "Odd",
        })
    }
}
