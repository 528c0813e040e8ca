//! How much is still owed: the fewest letters that lead to where a plan may
//! end, worked out backwards from there.

use crate::machine::Machine;

/// For every state the length of the shortest word that leads from it to an
/// accepting one, 0 where it accepts itself; none where no word does. Each
/// round looks at all moves, until a round alters nothing.
pub fn fewest(machine: &Machine) -> Vec<Option<usize>> {
    let mut fewest: Vec<Option<usize>> = machine.accepting.iter().map(|&accepts| accepts.then_some(0)).collect();
    loop {
        let by_one_letter = |state: usize| machine.next[state].iter().filter_map(|&target| fewest[target]).min();
        let round: Vec<Option<usize>> = (0..machine.states())
            .map(|state| fewest[state].into_iter().chain(by_one_letter(state).map(|rest| rest + 1)).min())
            .collect();
        if round == fewest {
            return fewest;
        }
        fewest = round;
    }
}
