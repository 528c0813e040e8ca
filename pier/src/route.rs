//! The ways of a picture's arrows between states that have their places.
//!
//! Neighbouring columns are joined by lines, states of one column by bows. An
//! arrow back over more columns goes down beside its state, along a lane below
//! all states, which it shares with the others to the same state, and up again.
//! An arrow to the hopeless state goes down to its bar.

use crate::arrow::{self, Arrow, Point, BAR, RADIUS, ROW};
use crate::card;
use crate::layout::Layout;
use std::collections::BTreeMap;

const GAP: f64 = 64.0;
const LETTER: f64 = 7.5;
/// Between two lines that run side by side.
const BESIDE: f64 = 9.0;
const LANE: f64 = 16.0;
const MARGIN: f64 = 24.0;
/// The arrow without a beginning.
const START: f64 = 44.0;

type Ends = (usize, usize);

pub struct Picture {
    pub states: BTreeMap<usize, Point>,
    pub arrows: Vec<Arrow>,
    /// The bar of the hopeless state: left, top, width.
    pub bar: Option<(f64, f64, f64)>,
    pub width: f64,
    pub height: f64,
}

/// The lines that run down beside the columns: how wide they are on each side of
/// each column, and how far from the middle of its state each one runs.
struct Lines {
    left: Vec<f64>,
    right: Vec<f64>,
    /// To the bar.
    down: BTreeMap<usize, f64>,
    /// To a lane, and from it.
    leaving: BTreeMap<Ends, f64>,
    arriving: BTreeMap<usize, f64>,
}

impl Lines {
    fn of(layout: &Layout) -> Lines {
        let none = vec![0.0; layout.columns.len()];
        let mut lines = Lines {
            left: none.clone(),
            right: none,
            down: BTreeMap::new(),
            leaving: BTreeMap::new(),
            arriving: BTreeMap::new(),
        };
        let long: Vec<Ends> = layout.arrows.keys().copied().filter(|&ends| is_long(layout, ends)).collect();
        for (column, states) in layout.columns.iter().enumerate() {
            for &state in states.iter().rev() {
                if layout.below.is_some_and(|below| layout.arrows.contains_key(&(state, below))) {
                    let lowest = states.last() == Some(&state);
                    let offset = if lowest { 0.0 } else { -take(&mut lines.left[column], 0.0) };
                    lines.down.insert(state, offset);
                }
                if long.iter().any(|&(_, to)| to == state) {
                    lines.arriving.insert(state, -take(&mut lines.left[column], 0.0));
                }
                for &ends in long.iter().filter(|&&(from, _)| from == state) {
                    lines.leaving.insert(ends, take(&mut lines.right[column], written(layout, ends)));
                }
            }
        }
        lines
    }
}

/// One more line, with so much room behind it for its label.
fn take(width: &mut f64, label: f64) -> f64 {
    let offset = RADIUS + BESIDE + *width;
    *width += BESIDE + label;
    offset
}

/// The columns of an arrow's two ends, where both stand in one.
fn columns(layout: &Layout, (from, to): Ends) -> Option<(usize, usize)> {
    Some((layout.places.get(&from)?.0, layout.places.get(&to)?.0))
}

fn is_long(layout: &Layout, ends: Ends) -> bool {
    columns(layout, ends).is_some_and(|(from, to)| from > to + 1)
}

/// How wide an arrow's label is.
fn written(layout: &Layout, ends: Ends) -> f64 {
    LETTER * card::label(&layout.arrows[&ends]).len() as f64
}

/// The states' places, columns from left to right and rows around the middle;
/// the width of all, and where the lanes begin.
fn places(layout: &Layout, lines: &Lines) -> (BTreeMap<usize, Point>, f64, f64) {
    let most = layout.columns.iter().map(Vec::len).max().unwrap_or(1) as f64;
    let top = MARGIN + RADIUS + 48.0;
    let mut x = MARGIN + START + RADIUS + lines.left[0];
    let mut states = BTreeMap::new();
    for (column, members) in layout.columns.iter().enumerate() {
        for (row, state) in members.iter().enumerate() {
            states.insert(*state, (x, top + ROW * (row as f64 + (most - members.len() as f64) / 2.0)));
        }
        let next = column + 1;
        let joins = |ends: &&Ends| matches!(columns(layout, **ends), Some(both) if both == (column, next) || both == (next, column));
        let widest = layout.arrows.keys().filter(joins).map(|&ends| written(layout, ends)).fold(0.0, f64::max);
        x += 2.0 * RADIUS + GAP + widest + lines.right[column] + lines.left.get(next).copied().unwrap_or(0.0);
    }
    (states, x - GAP + MARGIN, top + ROW * (most - 1.0) + RADIUS + 30.0)
}

/// A lane for each state that long arrows lead to, shared where they don't meet;
/// and where the lanes end.
fn lanes(lines: &Lines, states: &BTreeMap<usize, Point>, floor: f64) -> (BTreeMap<usize, f64>, f64) {
    let mut taken: Vec<Vec<(f64, f64)>> = Vec::new();
    let mut lanes = BTreeMap::new();
    for (to, offset) in &lines.arriving {
        let left = states[to].0 + offset;
        let sources = lines.leaving.iter().filter(|((_, target), _)| target == to);
        let right = sources.map(|((from, _), offset)| states[from].0 + offset).fold(left, f64::max);
        let free = |lane: &Vec<(f64, f64)>| lane.iter().all(|&(a, b)| right + BESIDE < a || b + BESIDE < left);
        let lane = taken.iter().position(free).unwrap_or(taken.len());
        if lane == taken.len() {
            taken.push(Vec::new());
        }
        taken[lane].push((left, right));
        lanes.insert(*to, floor + LANE * lane as f64);
    }
    (lanes, floor + LANE * taken.len() as f64)
}

pub fn picture(layout: &Layout) -> Picture {
    let lines = Lines::of(layout);
    let (states, width, floor) = places(layout, &lines);
    let (lanes, bottom) = lanes(&lines, &states, floor);
    let left = MARGIN + START - RADIUS;
    let bar = layout.below.map(|_| (left, bottom + 14.0, (width - MARGIN - left).max(120.0)));
    let (right, top) = bar.map_or((0.0, bottom), |(left, top, width)| (left + width, top));

    let way = |ends: &Ends| {
        let (from, to) = *ends;
        let label = card::label(&layout.arrows[ends]);
        let Some(&a) = states.get(&from) else { return arrow::bar_loop(right, top, label) };
        let Some(&b) = states.get(&to) else {
            let on_left = lines.down[&from] == 0.0 && !lines.arriving.contains_key(&from);
            return arrow::fall(a, lines.down[&from], top, on_left, label);
        };
        if let Some(offset) = lines.leaving.get(ends) {
            return arrow::back((a.0 + offset, a), lanes[&to], (b.0 + lines.arriving[&to], b), label);
        }
        match columns(layout, *ends) {
            _ if from == to => arrow::around(b, label),
            Some((column, other)) if column == other => arrow::bow(a, b, label),
            _ => arrow::line(a, b, layout.arrows.contains_key(&(to, from)), label),
        }
    };
    let arrows: Vec<Arrow> = layout.arrows.keys().map(way).collect();
    let end = |arrow: &Arrow| arrow.at.0 + LETTER * arrow.label.len() as f64 + MARGIN;
    let width = arrows.iter().map(end).fold(width, f64::max);
    Picture { states, arrows, bar, width, height: if bar.is_some() { top + BAR } else { bottom } }
}

#[cfg(test)]
mod tests {
    use super::*;
    use crate::card::Table;

    /// A ring of seven states, from each of which one letter leads to the start.
    #[test]
    fn states_stand_apart_and_every_arrow_has_a_way() {
        let moves = (0..7).map(|state| vec![(state + 1) % 7, 0]).collect();
        let owed = (0..7).map(|state| Some(usize::from(state > 0))).collect();
        let table = Table { letters: b"ab".to_vec(), marks: vec![1, 0, 0, 0, 0, 0, 0], moves, owed, bytes: 0 };
        let picture = picture(&Layout::of(&table, false));
        assert_eq!(picture.arrows.len(), table.arrows().len());
        let places: Vec<Point> = picture.states.values().copied().collect();
        for (i, a) in places.iter().enumerate() {
            assert!(places[i + 1..].iter().all(|b| (a.0 - b.0).hypot(a.1 - b.1) > 3.0 * RADIUS));
            assert!(a.0 + RADIUS < picture.width && a.1 + RADIUS < picture.height);
        }
    }
}
