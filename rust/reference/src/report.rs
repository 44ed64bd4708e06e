//! The text that the program flowcheck prints.

use crate::grid;
use crate::sheet;
use crate::turns;

/// The most bytes that flowcheck reads.
pub const MOST_BYTES: usize = 8199;

/// The text for one sheet: end start and empty turn list.
pub fn flowcheck(input: &[u8]) -> String {
    let bytes = &input[..input.len().min(MOST_BYTES)];
    let lts = match sheet::read(bytes) {
        Ok(lts) => lts,
        Err(refusal) => return format!("refused {}\n", refusal.number),
    };
    let outcome = turns::run(&lts, &grid::end_start_of(&lts), &[]);
    let kept = &outcome.kept;
    let mut text = format!(
        "pages {} turns {} kept {} classes {}\n",
        lts.states(),
        outcome.turns,
        kept.len(),
        kept.blocks().len()
    );
    for p in 0..lts.states() {
        text += &format!("{} {}", p, kept.representative(p));
        for q in kept.row(p).iter() {
            text += &format!(" {q}");
        }
        text.push('\n');
    }
    text
}
