//! The shortest stretch of a plan that lies inside no allowed plan, by trying
//! every stretch.

use crate::board::{self, Refused};

/// Its start and length; of equal ones the leftmost. None where the whole plan
/// lies inside some allowed plan. Card and letters are tested as in judging.
pub fn shortest(card: &[u8], plan: &[u8]) -> Result<Option<(usize, usize)>, Refused> {
    let (bodies, columns) = board::tested(card, plan)?;
    let machine = board::machine(&bodies);
    let hopeful: Vec<bool> = (0..machine.states()).map(|state| machine.can_accept_from(state)).collect();
    // Some letters lead to every state of a loaded card, so any may be the one
    // before the stretch.
    let lies_inside = |stretch: &[usize]| (0..machine.states()).any(|state| hopeful[machine.run(state, stretch)]);
    let of_length = |length: usize| (0..=columns.len() - length).map(move |start| (start, length));
    let mut stretches = (0..=columns.len()).flat_map(of_length);
    Ok(stretches.find(|&(start, length)| !lies_inside(&columns[start..start + length])))
}
