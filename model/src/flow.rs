//! Flows with their hops, and the places of their spans in the cycle.

use crate::line::Line;
use crate::records::{FlowRecord, Port};

#[derive(Clone, Copy, Debug, PartialEq, Eq)]
pub struct Hop {
    pub port: usize,
    pub offset: u64,
    pub wire: u64,
}

#[derive(Clone, Debug, PartialEq, Eq)]
pub struct Flow {
    pub number: u16,
    pub period: u64,
    pub deadline: u64,
    pub start: u64,
    pub hops: Vec<Hop>,
    pub total: u64,
}

impl Flow {
    /// The flow of a record on a line, with start 0. Every port of its route has to be there.
    pub fn of(record: &FlowRecord, line: &Line, ports: &[Port]) -> Flow {
        let mut hops = Vec::new();
        let mut offset = 0;
        let mut total = 0;
        for &port in &record.route {
            let port = usize::from(port);
            let wire = line.wire_time(port, record.length);
            hops.push(Hop { port, offset, wire });
            total = offset + wire + ports[port].propagation;
            offset = total + ports[port].processing;
        }
        Flow { number: record.number, period: record.period, deadline: record.deadline, start: 0, hops, total }
    }

    pub fn starting(&self, start: u64) -> Flow {
        Flow { start, ..self.clone() }
    }
}

/// A span as a gate list sees it: the place of its first instant, and how long it lasts.
#[derive(Clone, Copy, Debug, PartialEq, Eq)]
pub struct Span {
    pub place: u64,
    pub wire: u64,
}

/// Every span on a port in one cycle, one by one.
pub fn spans_on(flows: &[Flow], port: usize, cycle: u64) -> Vec<Span> {
    let mut spans = Vec::new();
    for flow in flows {
        for hop in flow.hops.iter().filter(|hop| hop.port == port) {
            spans.extend(spans_of(flow, hop, cycle));
        }
    }
    spans
}

/// The spans of a flow at one of its hops in one cycle.
pub fn spans_of(flow: &Flow, hop: &Hop, cycle: u64) -> impl Iterator<Item = Span> {
    let first = flow.start + hop.offset;
    let period = flow.period;
    let wire = hop.wire;
    (0..cycle / period).map(move |a| Span { place: (first + a * period) % cycle, wire })
}
