//! The way of one arrow, once its ends have their places.

pub const RADIUS: f64 = 18.0;
/// Between the rows of a column.
pub const ROW: f64 = 92.0;
/// The height of the hopeless state's bar.
pub const BAR: f64 = 28.0;

pub type Point = (f64, f64);

/// Which part of a label stands at its place.
#[derive(Clone, Copy)]
pub enum Anchor {
    Start,
    Middle,
    End,
}

pub struct Arrow {
    pub path: String,
    pub label: String,
    pub at: Point,
    pub anchor: Anchor,
    pub pale: bool,
}

/// The point at a part of the way along a curve with one handle.
fn along(a: Point, c: Point, b: Point, t: f64) -> Point {
    let mix = |a: f64, c: f64, b: f64| (1.0 - t) * (1.0 - t) * a + 2.0 * t * (1.0 - t) * c + t * t * b;
    (mix(a.0, c.0, b.0), mix(a.1, c.1, b.1))
}

/// The point of a state's ring that looks towards another point.
fn ring(state: Point, towards: Point) -> Point {
    let (dx, dy) = (towards.0 - state.0, towards.1 - state.1);
    let length = dx.hypot(dy).max(1.0);
    (state.0 + dx / length * RADIUS, state.1 + dy / length * RADIUS)
}

fn curve(a: Point, handle: Point, b: Point, part: f64, label: String) -> Arrow {
    let (from, to) = (ring(a, handle), ring(b, handle));
    let at = along(from, handle, to, part);
    let path = format!("M{:.1},{:.1} Q{:.1},{:.1} {:.1},{:.1}", from.0, from.1, handle.0, handle.1, to.0, to.1);
    Arrow { path, label, at: (at.0, at.1 - 6.0), anchor: Anchor::Middle, pale: false }
}

/// Between neighbouring columns; bent a little where another comes back.
pub fn line(a: Point, b: Point, both: bool, label: String) -> Arrow {
    let bend = if both { 0.16 } else { 0.0 };
    let (dx, dy) = (b.0 - a.0, b.1 - a.1);
    let handle = ((a.0 + b.0) / 2.0 + dy * bend, (a.1 + b.1) / 2.0 - dx * bend);
    // Lines that cross go up and down; their labels stand apart.
    curve(a, handle, b, if dy < 0.0 { 0.36 } else { 0.5 }, label)
}

/// Between two states of one column.
pub fn bow(a: Point, b: Point, label: String) -> Arrow {
    let rows = (b.1 - a.1).abs() / ROW;
    let side = if b.1 > a.1 { 1.0 } else { -1.0 };
    let handle = (a.0 + side * (24.0 + 26.0 * (rows - 1.0)), (a.1 + b.1) / 2.0);
    curve(a, handle, b, 0.5, label)
}

/// From a state to itself.
pub fn around((x, y): Point, label: String) -> Arrow {
    let (h, v) = (RADIUS * 0.5, RADIUS * 0.87);
    let path = format!(
        "M{:.1},{:.1} C{:.1},{:.1} {:.1},{:.1} {:.1},{:.1}",
        x - h,
        y - v,
        x - 26.0,
        y - 52.0,
        x + 26.0,
        y - 52.0,
        x + h,
        y - v
    );
    Arrow { path, label, at: (x, y - 47.0), anchor: Anchor::Middle, pale: false }
}

/// Back over several columns: down at `x`, along the lane, up to the other state.
pub fn back((x, a): (f64, Point), lane: f64, (up, b): (f64, Point), label: String) -> Arrow {
    let from = ring(a, (a.0 + 1.0, a.1 + 1.0));
    let to = ring(b, (b.0 - 1.0, b.1 + 1.0));
    let path = format!(
        "M{:.1},{:.1} Q{x:.1},{:.1} {x:.1},{:.1} V{:.1} Q{x:.1},{lane:.1} {:.1},{lane:.1} H{:.1} Q{up:.1},{lane:.1} {up:.1},{:.1} V{:.1} Q{up:.1},{:.1} {:.1},{:.1}",
        from.0,
        from.1,
        from.1,
        from.1 + 12.0,
        lane - 6.0,
        x - 6.0,
        up + 6.0,
        lane - 6.0,
        to.1 + 12.0,
        to.1 + 2.0,
        to.0,
        to.1
    );
    Arrow { path, label, at: (x + 3.0, a.1 + RADIUS + 16.0), anchor: Anchor::Start, pale: false }
}

/// Down to the hopeless state's bar, with the label on the left or right.
pub fn fall(a: Point, offset: f64, bar: f64, left: bool, label: String) -> Arrow {
    let x = a.0 + offset;
    let path = if offset == 0.0 {
        format!("M{x:.1},{:.1} V{bar:.1}", a.1 + RADIUS)
    } else {
        let from = ring(a, (a.0 - 1.0, a.1 + 1.0));
        format!("M{:.1},{:.1} Q{x:.1},{:.1} {x:.1},{:.1} V{bar:.1}", from.0, from.1, from.1, from.1 + 12.0)
    };
    let (shift, anchor) = if left { (-4.0, Anchor::End) } else { (4.0, Anchor::Start) };
    Arrow { path, label, at: (x + shift, a.1 + RADIUS + 18.0), anchor, pale: true }
}

/// From the bar to itself, at its right end.
pub fn bar_loop(right: f64, top: f64, label: String) -> Arrow {
    let (a, b) = (top + 6.0, top + BAR - 6.0);
    let path =
        format!("M{right:.1},{a:.1} C{0:.1},{1:.1} {0:.1},{2:.1} {right:.1},{b:.1}", right + 26.0, a - 6.0, b + 6.0);
    Arrow { path, label, at: (right + 24.0, top + BAR / 2.0 + 4.0), anchor: Anchor::Start, pale: true }
}
