//! Where the states of a picture stand: in columns by their distance from the
//! start, ordered in each column by the middle of their neighbours (the layered
//! drawing of Sugiyama, without dummy nodes: a move leads one column on at most).

use crate::card::Table;
use std::collections::BTreeMap;

/// The arrows that are drawn, and the place of every state in its column.
pub struct Layout {
    pub arrows: BTreeMap<(usize, usize), Vec<u8>>,
    /// The states of each column, from top to bottom.
    pub columns: Vec<Vec<usize>>,
    /// Column and row of each state that stands in one.
    pub places: BTreeMap<usize, (usize, usize)>,
    /// The hopeless state, where it is drawn below the columns.
    pub below: Option<usize>,
}

impl Layout {
    pub fn of(table: &Table, all: bool) -> Layout {
        let hopeless = table.hopeless().filter(|&state| state != 0);
        let left_out = table.left_out(all);
        let mut arrows = table.arrows();
        arrows.retain(|&(_, next), _| Some(next) != left_out || next == 0);
        let mut columns = columns(&arrows, hopeless);
        for _ in 0..4 {
            sweep(&mut columns, &arrows);
        }
        let mut places = BTreeMap::new();
        for (column, states) in columns.iter().enumerate() {
            places.extend(states.iter().enumerate().map(|(row, &state)| (state, (column, row))));
        }
        Layout { arrows, columns, places, below: hopeless.filter(|_| left_out.is_none()) }
    }
}

/// The states by their distance from the start, without the hopeless one.
fn columns(arrows: &BTreeMap<(usize, usize), Vec<u8>>, hopeless: Option<usize>) -> Vec<Vec<usize>> {
    let mut columns = vec![vec![0]];
    let mut seen = vec![0];
    loop {
        let mut column = Vec::new();
        for state in &columns[columns.len() - 1] {
            for &(_, next) in arrows.range((*state, 0)..(*state + 1, 0)).map(|(ends, _)| ends) {
                if Some(next) != hopeless && !seen.contains(&next) {
                    seen.push(next);
                    column.push(next);
                }
            }
        }
        if column.is_empty() {
            return columns;
        }
        columns.push(column);
    }
}

/// Orders each column by the middle of its neighbours in the column before it,
/// then in the column behind it.
fn sweep(columns: &mut [Vec<usize>], arrows: &BTreeMap<(usize, usize), Vec<u8>>) {
    let last = columns.len() - 1;
    let pairs = (1..=last).map(|column| (column, column - 1)).chain((0..last).rev().map(|column| (column, column + 1)));
    for (column, beside) in pairs {
        let neighbours = columns[beside].clone();
        let middle = |state: usize| {
            let rows: Vec<usize> = (0..neighbours.len())
                .filter(|&row| {
                    let other = neighbours[row];
                    arrows.contains_key(&(other, state)) || arrows.contains_key(&(state, other))
                })
                .collect();
            // In hundredths, since rows are whole numbers.
            (!rows.is_empty()).then(|| rows.iter().sum::<usize>() * 100 / rows.len())
        };
        columns[column].sort_by_key(|&state| middle(state).unwrap_or(usize::MAX));
    }
}

#[cfg(test)]
mod tests {
    use super::*;
    use crate::card;

    #[test]
    fn every_state_has_a_place_and_a_move_leads_one_column_on() {
        let table = card::first();
        let layout = Layout::of(&table, false);
        assert_eq!(layout.columns, [[0], [1]]);
        assert_eq!(layout.below, Some(2));
        for &(from, to) in layout.arrows.keys() {
            if let (Some(a), Some(b)) = (layout.places.get(&from), layout.places.get(&to)) {
                assert!(b.0 <= a.0 + 1);
            }
        }
    }

    #[test]
    fn a_card_that_allows_nothing_is_one_box() {
        let table = Table { letters: b"a".to_vec(), marks: vec![2], moves: vec![vec![0]], owed: vec![None], bytes: 15 };
        let layout = Layout::of(&table, false);
        assert_eq!((layout.columns, layout.below), (vec![vec![0]], None));
    }

    #[test]
    fn a_card_without_letters_is_one_state_without_arrows() {
        for mark in [card::PLAN_MAY_END, card::HOPELESS] {
            let table = Table::of(&card::without_letters(mark)).expect("it loads");
            let layout = Layout::of(&table, false);
            assert_eq!((layout.arrows.len(), layout.columns, layout.below), (0, vec![vec![0]], None));
        }
    }
}
