//! For any cycle: spans cut into pieces of the cycle, and compared two by two.

use crate::flow::{spans_of, spans_on, Flow, Span};

/// The places from `from` up to, but without, `to`.
type Piece = (u64, u64);

/// Does no span of the flow share a place with a span of a held flow?
pub fn fits(flow: &Flow, held: &[Flow], cycle: u64) -> bool {
    flow.hops.iter().all(|hop| {
        let taken = pieces(spans_on(held, hop.port, cycle), cycle);
        let wanted = pieces(spans_of(flow, hop, cycle), cycle);
        wanted.iter().all(|&w| taken.iter().all(|&t| apart(w, t)))
    })
}

fn apart(one: Piece, other: Piece) -> bool {
    one.1 <= other.0 || other.1 <= one.0
}

fn pieces(spans: impl IntoIterator<Item = Span>, cycle: u64) -> Vec<Piece> {
    spans.into_iter().flat_map(|span| around(span.place, span.wire, cycle)).collect()
}

/// The places of a circle from `from` on, `count` of them: one piece, or two across its edge.
pub fn around(from: u64, count: u64, circle: u64) -> Vec<Piece> {
    if count >= circle {
        vec![(0, circle)]
    } else if from + count <= circle {
        vec![(from, from + count)]
    } else {
        vec![(from, circle), (0, from + count - circle)]
    }
}

/// The smallest start below the period that no span of a held flow shuts.
pub fn earliest(flow: &Flow, held: &[Flow], cycle: u64) -> Option<u64> {
    let mut shut: Vec<Piece> = Vec::new();
    for hop in &flow.hops {
        for span in spans_on(held, hop.port, cycle) {
            shut.extend(shut_starts(flow.period, hop.offset, hop.wire, span));
        }
    }
    shut.sort_unstable();
    let mut start = 0;
    for (from, to) in shut {
        if start < from {
            break;
        }
        start = start.max(to);
    }
    (start < flow.period).then_some(start)
}

/// The starts, round the period, at which some span of a hop meets the span.
fn shut_starts(period: u64, offset: u64, wire: u64, span: Span) -> Vec<Piece> {
    // A span from place x on meets it where x is one of the wire + span.wire - 1 places
    // from span.place - wire + 1 on. The spans of the hop come round with the period.
    let back = (offset + wire - 1) % period;
    let from = (span.place % period + period - back) % period;
    around(from, wire + span.wire - 1, period)
}
