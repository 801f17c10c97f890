//! The rewriting.

use super::check::{nearest, opened, NONE};
use super::layout::*;

/// Writes the rewritten file to the front of the buffer; the refusal and the length.
pub fn rewrite(file: &[u8], out: &mut [u8]) -> (u8, usize) {
    match rewritten(file, out) {
        Ok(length) => (0, length),
        Err(number) => (number, 0),
    }
}

/// What the rewriting goes by: the file, each slave's call signal, and each chart's own.
struct Plan<'a> {
    body: Body<'a>,
    calls: [u64; SLAVES],
    own: [u64; CHARTS],
}

/// The length of what was written, or the refusal.
fn rewritten(file: &[u8], out: &mut [u8]) -> Result<usize, u8> {
    let body = opened(file)?;
    if body.may_stay() {
        return Err(46);
    }
    let calls = calls(&body).ok_or(40)?;
    let own = nearest(&body).map(|slave| match slave {
        NONE => 0,
        slave => calls[usize::from(slave)],
    });
    let plan = Plan { body, calls, own };
    plan.write(plan.counted()?, out)
}

/// The lowest free signals, one for each slave, if there are enough.
fn calls(body: &Body) -> Option<[u64; SLAVES]> {
    let mut free = !used(body);
    let mut calls = [0; SLAVES];
    for call in calls.iter_mut().take(body.slaves) {
        if free == 0 {
            return None;
        }
        *call = free & free.wrapping_neg();
        free ^= *call;
    }
    Some(calls)
}

/// The signals in any set of the file.
fn used(body: &Body) -> u64 {
    let charts = (0..body.charts).map(|c| body.chart(c));
    let transitions = (0..body.transitions).map(|t| body.transition(t));
    let nodes = (0..body.nodes).map(|j| body.node(j));
    charts.fold(0, |set, c| set | c.feedback | c.extra)
        | transitions.fold(0, |set, t| set | t.needed | t.barred | t.action)
        | nodes.fold(0, |set, n| set | n.x | n.y)
}

impl<'a> Plan<'a> {
    /// The counts of the result, or 41 to 44.
    fn counted(&self) -> Result<Body<'a>, u8> {
        let (mut transitions, mut full_state, mut full_chart) = (0, false, false);
        let mut first = 0;
        for c in 0..self.body.charts {
            let chart = self.body.chart(c);
            let last = first + usize::from(chart.transitions);
            let made = self.transitions_made(c, &chart);
            full_state |= self.own[c] != 0 && self.is_full(first, last);
            full_chart |= made > 64;
            transitions += made;
            first = last;
        }
        let nodes = self.body.nodes + self.body.slaves + self.masters();
        let limits = [(41, full_state), (42, full_chart), (44, nodes > 64)];
        match limits.iter().find(|(_, applies)| *applies) {
            Some((number, _)) => Err(*number),
            None => Ok(Body {
                transitions,
                slaves: 0,
                nodes,
                ..self.body
            }),
        }
    }

    /// How many transitions a chart has in the result.
    fn transitions_made(&self, number: usize, chart: &Chart) -> usize {
        let idle = if self.own[number] == 0 {
            0
        } else {
            chart.states
        };
        usize::from(chart.transitions) + usize::from(idle)
    }

    /// Whether a state of these transitions has no room for one more.
    fn is_full(&self, first: usize, last: usize) -> bool {
        let mut out = [0; 16];
        (first..last).any(|t| {
            let from = &mut out[usize::from(self.body.transition(t).from)];
            *from += 1;
            *from == 8
        })
    }

    /// How many charts are masters.
    fn masters(&self) -> usize {
        let mut charts = 0_u16;
        for slave in self.body.all_slaves() {
            charts |= 1 << slave.chart;
        }
        charts.count_ones() as usize
    }

    /// Writes a result of these counts, or gives 45.
    fn write(&self, made: Body, out: &mut [u8]) -> Result<usize, u8> {
        let size = made.size();
        let out = out.get_mut(..size + TRAILER).ok_or(45)?;
        let mut at = 0;
        for c in 0..self.body.charts {
            self.write_chart(c, &mut out[CHART * c..][..CHART]);
            at = CHART * (c + 1);
        }
        self.write_transitions(&mut out[at..]);
        self.write_nodes(&mut out[made.node_at(0)..]);
        let trailer = &mut out[size..];
        trailer[..4].copy_from_slice(&(size as u32).to_le_bytes());
        trailer[4..8].copy_from_slice(&[made.charts as u8, 0, made.nodes as u8, 1]);
        trailer[8..10].copy_from_slice(&(made.transitions as u16).to_le_bytes());
        trailer[10..].fill(0);
        Ok(size + TRAILER)
    }

    /// A chart with its new number of transitions.
    fn write_chart(&self, number: usize, out: &mut [u8]) {
        out.copy_from_slice(&self.body.bytes[CHART * number..][..CHART]);
        let chart = self.body.chart(number);
        out[2] = self.transitions_made(number, &chart) as u8;
    }

    /// All transitions, each chart's idle ones after its own.
    fn write_transitions(&self, out: &mut [u8]) {
        let mut records = out.chunks_exact_mut(TRANSITION);
        let mut first = 0;
        for c in 0..self.body.charts {
            let chart = self.body.chart(c);
            let last = first + usize::from(chart.transitions);
            for number in first..last {
                let made = self.called(c, self.body.transition(number));
                put_transition(records.next().unwrap(), made);
            }
            first = last;
            let idle = if self.own[c] == 0 { 0 } else { chart.states };
            for state in 0..idle {
                put_transition(records.next().unwrap(), self.idle(c, state));
            }
        }
    }

    /// A chart's own transition with the call signals that it outputs and needs.
    fn called(&self, chart: usize, mut transition: Transition) -> Transition {
        transition.needed |= self.own[chart];
        for (slave, call) in self.body.all_slaves().zip(self.calls) {
            let touches = slave.state == transition.from || slave.state == transition.to;
            if usize::from(slave.chart) == chart && touches {
                transition.action |= call;
            }
        }
        transition
    }

    /// The idle transition of a chart's state.
    fn idle(&self, chart: usize, state: u8) -> Transition {
        Transition {
            from: state,
            to: state,
            needed: 0,
            barred: self.own[chart],
            action: 0,
        }
    }

    /// All nodes, by their new numbers.
    fn write_nodes(&self, out: &mut [u8]) {
        let mut names = [0_u8; 64];
        let mut made = Made { out, count: 0 };
        for number in 0..self.body.nodes {
            let mut node = self.body.node(number);
            if node.kind == 0 {
                self.write_master(node, &names, &mut made);
            } else {
                node.a = names[usize::from(node.a)];
                node.b = if node.kind == 1 {
                    names[usize::from(node.b)]
                } else {
                    0
                };
                made.push(node);
            }
            names[number] = made.last();
        }
    }

    /// A chart's node, and what a master's becomes.
    fn write_master(&self, node: Node, names: &[u8; 64], made: &mut Made) {
        made.push(node);
        let of_chart = |(slave, _): &(Slave, u64)| slave.chart == node.a;
        let slaves = || self.body.all_slaves().zip(self.calls).filter(of_chart);
        let calls = slaves().fold(0, |set, (_, call)| set | call);
        if calls == 0 {
            return;
        }
        let feedback = self.body.chart(usize::from(node.a)).feedback | calls;
        for (slave, _) in slaves() {
            let (a, b) = (made.last(), names[usize::from(slave.node)]);
            made.push(Node {
                kind: 1,
                a,
                b,
                x: feedback,
                y: 0,
            });
        }
        made.push(Node {
            kind: 2,
            a: made.last(),
            b: 0,
            x: calls,
            y: calls,
        });
    }
}

/// The nodes made so far.
struct Made<'a> {
    out: &'a mut [u8],
    count: usize,
}

impl Made<'_> {
    /// The number of the one made last.
    fn last(&self) -> u8 {
        (self.count - 1) as u8
    }

    /// One more.
    fn push(&mut self, node: Node) {
        let record = &mut self.out[NODE * self.count..][..NODE];
        record[..4].copy_from_slice(&[node.kind, node.a, node.b, 0]);
        record[4..12].copy_from_slice(&node.x.to_le_bytes());
        record[12..].copy_from_slice(&node.y.to_le_bytes());
        self.count += 1;
    }
}

/// A transition's bytes.
fn put_transition(record: &mut [u8], transition: Transition) {
    record[..4].copy_from_slice(&[transition.from, transition.to, 0, 0]);
    record[4..12].copy_from_slice(&transition.needed.to_le_bytes());
    record[12..20].copy_from_slice(&transition.barred.to_le_bytes());
    record[20..].copy_from_slice(&transition.action.to_le_bytes());
}
