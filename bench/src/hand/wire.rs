//! The tree of a file folded into masks.

use super::check::{nearest, NONE};
use super::layout::Body;

/// A mask for each of so many charts, which is as many as a file has or more.
pub type Row<const N: usize> = [u64; N];

/// What a step needs of a file's tree.
pub struct Wiring<const N: usize> {
    /// What of the input gets down to each chart.
    pub down: Row<N>,
    /// What of each chart's action gets up to the output.
    pub up: Row<N>,
    /// What of chart d's action gets to chart c, at `back[d][c]`.
    pub back: [Row<N>; N],
    /// Of each chart the master and the state of its nearest slave; no master outside all slaves.
    pub masters: [Option<(usize, u8)>; N],
}

/// The wiring of a checked file.
pub fn wired<const N: usize>(body: &Body) -> Wiring<N> {
    let mut back = [[0; N]; N];
    let mut rows = Rows::EMPTY;
    wire(body, body.nodes - 1, &mut back, &mut rows);
    Wiring {
        down: rows.down,
        up: rows.up,
        back,
        masters: masters(body),
    }
}

/// What of a set offered to a part gets down to each chart, and what of each chart's action gets up.
#[derive(Clone, Copy)]
struct Rows<const N: usize> {
    down: Row<N>,
    up: Row<N>,
}

impl<const N: usize> Rows<N> {
    /// Nothing gets down, nothing up.
    const EMPTY: Rows<N> = Rows {
        down: [0; N],
        up: [0; N],
    };

    /// Joins the rows of a part, without x of its input and y of its output.
    fn join(&mut self, part: &Rows<N>, x: u64, y: u64) {
        for c in 0..N {
            self.down[c] |= part.down[c] & !x;
            self.up[c] |= part.up[c] & !y;
        }
    }
}

/// Joins the rows of a node's part to `rows`, and its feedback to `back`.
fn wire<const N: usize>(body: &Body, number: usize, back: &mut [Row<N>; N], rows: &mut Rows<N>) {
    let node = body.node(number);
    let mut part = Rows::EMPTY;
    match node.kind {
        0 => wire_chart(body, usize::from(node.a), back, rows),
        1 => {
            wire(body, usize::from(node.a), back, &mut part);
            wire(body, usize::from(node.b), back, &mut part);
            feed(back, &part, node.x);
            rows.join(&part, 0, 0);
        }
        _ => {
            wire(body, usize::from(node.a), back, &mut part);
            rows.join(&part, node.x, node.y);
        }
    }
}

/// Joins the rows of a chart and its slaves. Without slaves of its own a single mask of each is not empty.
fn wire_chart<const N: usize>(
    body: &Body,
    chart: usize,
    back: &mut [Row<N>; N],
    rows: &mut Rows<N>,
) {
    let feedback = body.chart(chart).feedback;
    if body
        .all_slaves()
        .all(|slave| usize::from(slave.chart) != chart)
    {
        rows.down[chart] = u64::MAX;
        rows.up[chart] = u64::MAX;
        back[chart][chart] |= feedback;
        return;
    }
    let own = std::array::from_fn(|c| if c == chart { u64::MAX } else { 0 });
    let mut part = Rows { down: own, up: own };
    for slave in body.all_slaves() {
        if usize::from(slave.chart) == chart {
            wire(body, usize::from(slave.node), back, &mut part);
        }
    }
    feed(back, &part, feedback);
    rows.join(&part, 0, 0);
}

/// Feedback of a set over a part.
fn feed<const N: usize>(back: &mut [Row<N>; N], part: &Rows<N>, set: u64) {
    if set == 0 {
        return;
    }
    for (row, up) in back.iter_mut().zip(part.up) {
        let fed = up & set;
        if fed != 0 {
            for (mask, down) in row.iter_mut().zip(part.down) {
                *mask |= fed & down;
            }
        }
    }
}

/// The masters of all charts.
fn masters<const N: usize>(body: &Body) -> [Option<(usize, u8)>; N] {
    let mut masters = [None; N];
    if body.slaves == 0 {
        return masters;
    }
    for (master, slave) in masters.iter_mut().zip(nearest(body)) {
        if slave != NONE {
            let slave = body.slave(usize::from(slave));
            *master = Some((usize::from(slave.chart), slave.state));
        }
    }
    masters
}
