//! Refusals 1 to 11.

use super::layout::*;

/// The number of no slave.
pub const NONE: u8 = 255;

/// The body of a file that passes 1 to 11, or the refusal.
pub fn opened(file: &[u8]) -> Result<Body<'_>, u8> {
    let body = found(file)?;
    let trailer = &file[file.len() - TRAILER..];
    refuse(nonzero(&body, trailer), 5)?;
    refuse(bad_charts(&body), 6)?;
    refuse(bad_transitions(&body), 7)?;
    refuse(bad_slaves(&body), 8)?;
    refuse(bad_nodes(&body), 9)?;
    refuse(bad_naming(&body), 10)?;
    refuse(bad_inside(&body), 11)?;
    Ok(body)
}

/// The refusal, if it applies.
fn refuse(applies: bool, number: u8) -> Result<(), u8> {
    if applies {
        Err(number)
    } else {
        Ok(())
    }
}

/// 1 to 4: the body that the trailer points to.
fn found(file: &[u8]) -> Result<Body<'_>, u8> {
    let start = file.len().checked_sub(TRAILER).ok_or(1)?;
    let trailer = &file[start..];
    refuse(trailer[7] != 1 && trailer[7] != STAY_EDITION, 2)?;
    let mut body = Body {
        bytes: &[],
        edition: trailer[7],
        charts: usize::from(trailer[4]),
        transitions: usize::from(u16::from_le_bytes([trailer[8], trailer[9]])),
        slaves: usize::from(trailer[5]),
        nodes: usize::from(trailer[6]),
    };
    let counted = (1..=CHARTS).contains(&body.charts)
        && body.slaves <= SLAVES
        && (1..=NODES).contains(&body.nodes)
        && body.transitions <= TRANSITIONS;
    refuse(!counted, 3)?;
    let distance = u32::from_le_bytes(trailer[..4].try_into().unwrap()) as usize;
    refuse(distance != body.size() || distance > start, 4)?;
    body.bytes = &file[start - distance..start];
    Ok(body)
}

/// 5: a zero byte that is none.
fn nonzero(body: &Body, trailer: &[u8]) -> bool {
    let any = |at: usize, count: usize| {
        body.bytes[at..at + count]
            .iter()
            .fold(0, |all, byte| all | byte)
            != 0
    };
    (0..body.charts).any(|c| any(CHART * c + 3, 5))
        || (0..body.transitions).any(|t| any(body.transition_at(t) + 2, 2))
        || (0..body.slaves).any(|i| any(body.slave_at(i) + 3, 1))
        || (0..body.nodes).any(|j| any(body.node_at(j) + 3, 1))
        || trailer[10..] != [0, 0]
}

/// 6: a bad chart, or a sum of transitions that is not the trailer's.
fn bad_charts(body: &Body) -> bool {
    let mut sum = 0;
    for chart in (0..body.charts).map(|c| body.chart(c)) {
        sum += usize::from(chart.transitions);
        let states = (1..=16).contains(&chart.states) && chart.initial < chart.states;
        if !states || chart.transitions > 64 {
            return true;
        }
    }
    sum != body.transitions
}

/// 7: a bad transition, or more than 8 from a state.
fn bad_transitions(body: &Body) -> bool {
    let mut next = 0;
    for chart in (0..body.charts).map(|c| body.chart(c)) {
        let first = next;
        next += usize::from(chart.transitions);
        let mut out = [0_usize; 16];
        for number in first..next {
            let at = body.transition_at(number);
            let (from, to) = (body.bytes[at], body.bytes[at + 1]);
            if from >= chart.states || to >= chart.states || out[usize::from(from)] == FROM_STATE {
                return true;
            }
            out[usize::from(from)] += 1;
        }
    }
    false
}

/// 8: a slave out of range, or out of order.
fn bad_slaves(body: &Body) -> bool {
    let mut before = None;
    body.all_slaves().any(|slave| {
        let place = Some((slave.chart, slave.state));
        let rises = before < place;
        before = place;
        usize::from(slave.chart) >= body.charts
            || slave.state >= body.chart(usize::from(slave.chart)).states
            || usize::from(slave.node) >= body.nodes
            || !rises
    })
}

/// 9: a bad node.
fn bad_nodes(body: &Body) -> bool {
    (0..body.nodes).any(|own| {
        let node = body.node(own);
        let lower = |name: u8| usize::from(name) < own;
        match node.kind {
            0 => usize::from(node.a) >= body.charts || node.b != 0 || node.x | node.y != 0,
            1 => !lower(node.a) || !lower(node.b) || node.y != 0,
            2 => !lower(node.a) || node.b != 0,
            _ => true,
        }
    })
}

/// What one walk over slaves and nodes counts: how often each node is named, how many nodes hold each chart, and which was the last of them.
struct Walked {
    named: [u8; NODES],
    held: [u8; CHARTS],
    holder: [u8; CHARTS],
}

fn walked(body: &Body) -> Walked {
    let mut to = Walked {
        named: [0; NODES],
        held: [0; CHARTS],
        holder: [0; CHARTS],
    };
    for slave in body.all_slaves() {
        to.named[usize::from(slave.node)] += 1;
    }
    for number in 0..body.nodes {
        let node = body.node(number);
        let (a, b) = (usize::from(node.a), usize::from(node.b));
        match node.kind {
            0 => {
                to.held[a] += 1;
                to.holder[a] = number as u8;
            }
            1 => {
                to.named[a] += 1;
                to.named[b] += 1;
            }
            _ => to.named[a] += 1,
        }
    }
    to
}

/// 10: a chart not held once, a node not named as often as is due, or a slave's node not below its master's.
fn bad_naming(body: &Body) -> bool {
    let found = walked(body);
    let last = body.nodes - 1;
    found.held[..body.charts].iter().any(|&nodes| nodes != 1)
        || found.named[..last].iter().any(|&times| times != 1)
        || found.named[last] != 0
        || body
            .all_slaves()
            .any(|slave| slave.node >= found.holder[usize::from(slave.chart)])
}

/// 11: a chart inside a slave that is not numbered above its master.
fn bad_inside(body: &Body) -> bool {
    if body.slaves == 0 {
        return false;
    }
    let lowest = lowest(body);
    body.all_slaves()
        .any(|slave| slave.chart >= lowest[usize::from(slave.node)])
}

/// Of each node the lowest chart, slaves left out: if all slaves pass, they have none that is lower.
fn lowest(body: &Body) -> [u8; NODES] {
    let mut lowest = [0; NODES];
    for number in 0..body.nodes {
        let node = body.node(number);
        lowest[number] = match node.kind {
            0 => node.a,
            1 => lowest[usize::from(node.a)].min(lowest[usize::from(node.b)]),
            _ => lowest[usize::from(node.a)],
        };
    }
    lowest
}

/// The number of each chart's nearest slave, from the last node down.
pub fn nearest(body: &Body) -> [u8; CHARTS] {
    let mut of_node = [NONE; NODES];
    let mut of_chart = [NONE; CHARTS];
    for (number, slave) in body.all_slaves().enumerate() {
        of_node[usize::from(slave.node)] = number as u8;
    }
    for number in (0..body.nodes).rev() {
        let node = body.node(number);
        let slave = of_node[number];
        if node.kind == 0 {
            of_chart[usize::from(node.a)] = slave;
            continue;
        }
        of_node[usize::from(node.a)] = slave;
        if node.kind == 1 {
            of_node[usize::from(node.b)] = slave;
        }
    }
    of_chart
}
