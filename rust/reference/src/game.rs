//! Hand play: the game between challenger and defender for a few rounds.

use crate::grid;
use crate::lts::{Action, Lts, State};
use crate::refusal::Refusal;
use crate::relation::Preorder;
use crate::sheet;

/// The most rounds of a hand play.
pub const MOST_ROUNDS: usize = 6;

/// The game on a flow, with the challenger's turns already worked out.
pub struct Game<'a> {
    lts: &'a Lts,
    start: &'a Preorder,
    /// One answer per pair and rounds left, none where not yet known.
    known: Vec<Option<bool>>,
    rounds: usize,
}

impl<'a> Game<'a> {
    /// The game for at most the given number of rounds.
    pub fn new(lts: &'a Lts, start: &'a Preorder, rounds: usize) -> Game<'a> {
        let n = lts.states();
        Game {
            lts,
            start,
            known: vec![None; n * n * (rounds + 1)],
            rounds,
        }
    }

    /// The challenger's turn at (p, q) with k rounds left: does the
    /// challenger win?
    pub fn challenger_wins(&mut self, p: State, q: State, k: usize) -> bool {
        let place = (p * self.lts.states() + q) * (self.rounds + 1) + k;
        if let Some(answer) = self.known[place] {
            return answer;
        }
        let lts = self.lts;
        let answer = !self.start.contains(p, q)
            || (k > 0
                && lts
                    .moves_of(p)
                    .iter()
                    .any(|step| self.defender_loses(step.target, q, step.action, k)));
        self.known[place] = Some(answer);
        answer
    }

    /// The defender's turn at q after a move with action `a` to `t`, with k
    /// rounds left: is every reply lost?
    fn defender_loses(&mut self, t: State, q: State, a: Action, k: usize) -> bool {
        let lts = self.lts;
        lts.replies(q, a)
            .iter()
            .all(|reply| self.challenger_wins(t, reply.target, k - 1))
    }
}

/// Hand play: does the challenger win at (p, q) with the given rounds?
pub fn hand_play(
    sheet: &[u8],
    start: &[u64],
    p: u16,
    q: u16,
    rounds: u16,
) -> Result<bool, Refusal> {
    let lts = sheet::read(sheet)?;
    let start = grid::read_start(start, lts.states())?;
    let (p, q, rounds) = (usize::from(p), usize::from(q), usize::from(rounds));
    if p >= lts.states() || q >= lts.states() {
        return Err(Refusal::PAGE_ARGUMENT);
    }
    if rounds > MOST_ROUNDS {
        return Err(Refusal::ROUNDS);
    }
    Ok(Game::new(&lts, &start, rounds).challenger_wins(p, q, rounds))
}
