//! For small cycles: every place of the cycle one by one.

use crate::flow::{spans_of, spans_on, Flow};

/// Which places of the cycle a port has taken.
struct Taken {
    /// How many places before each one are taken, over two cycles.
    before: Vec<u32>,
    cycle: u64,
}

impl Taken {
    fn new(held: &[Flow], port: usize, cycle: u64) -> Taken {
        let mut marks = vec![false; cycle as usize];
        for span in spans_on(held, port, cycle) {
            for t in span.place..span.place + span.wire.min(cycle) {
                marks[(t % cycle) as usize] = true;
            }
        }
        let mut before = vec![0];
        for y in 0..2 * cycle {
            before.push(before[y as usize] + u32::from(marks[(y % cycle) as usize]));
        }
        Taken { before, cycle }
    }

    /// Is none of these places taken?
    fn free(&self, place: u64, count: u64) -> bool {
        let end = place + count.min(self.cycle);
        self.before[end as usize] == self.before[place as usize]
    }
}

/// Does no span of the flow share a place with a span of a held flow?
pub fn fits(flow: &Flow, held: &[Flow], cycle: u64) -> bool {
    start_is_free(flow, &taken(flow, held, cycle), cycle)
}

/// The smallest start that fits, by trying every start below the period.
pub fn earliest(flow: &Flow, held: &[Flow], cycle: u64) -> Option<u64> {
    let taken = taken(flow, held, cycle);
    let mut tried = flow.clone();
    (0..flow.period).find(|&start| {
        tried.start = start;
        start_is_free(&tried, &taken, cycle)
    })
}

fn taken(flow: &Flow, held: &[Flow], cycle: u64) -> Vec<Taken> {
    flow.hops.iter().map(|hop| Taken::new(held, hop.port, cycle)).collect()
}

fn start_is_free(flow: &Flow, taken: &[Taken], cycle: u64) -> bool {
    flow.hops
        .iter()
        .zip(taken)
        .all(|(hop, taken)| spans_of(flow, hop, cycle).all(|span| taken.free(span.place, span.wire)))
}

#[cfg(test)]
mod tests {
    use super::*;
    use crate::flow::Hop;
    use crate::pieces;
    use crate::random::Random;
    use std::collections::HashSet;

    const CYCLE: u64 = 240;

    fn some_flow(random: &mut Random) -> Flow {
        let period = CYCLE / random.pick(&[1, 2, 3, 4, 5, 6, 8, 10, 12]);
        let hops = (0..random.below(3) as usize + 1)
            .map(|port| Hop { port, offset: random.below(1_000), wire: random.below(period.min(30)) + 1 })
            .collect();
        Flow { number: 1, period, deadline: 0, start: random.below(period), hops, total: 0 }
    }

    /// The instants themselves at which a flow holds a port, up to `end`.
    fn held_instants(flow: &Flow, port: usize, end: u64) -> HashSet<u64> {
        let mut instants = HashSet::new();
        for hop in flow.hops.iter().filter(|hop| hop.port == port) {
            let mut begin = flow.start + hop.offset;
            while begin < end {
                instants.extend(begin..begin + hop.wire);
                begin += flow.period;
            }
        }
        instants
    }

    /// Two flows share an instant, looked for from instant 0 to well behind every first span.
    fn overlap(one: &Flow, other: &Flow) -> bool {
        let end = 1_300 + 2 * CYCLE;
        (0..3).any(|port| !held_instants(one, port, end).is_disjoint(&held_instants(other, port, end)))
    }

    #[test]
    fn places_and_pieces_agree_with_the_instants() {
        let mut random = Random::new(1);
        let mut taken = 0;
        for _ in 0..2_000 {
            let held = [some_flow(&mut random)];
            let flow = some_flow(&mut random);
            let fit = !overlap(&flow, &held[0]);
            taken += u32::from(!fit);
            assert_eq!(fits(&flow, &held, CYCLE), fit, "{flow:?} {held:?}");
            assert_eq!(pieces::fits(&flow, &held, CYCLE), fit, "{flow:?} {held:?}");
        }
        assert!((200..1_800).contains(&taken), "{taken}");
    }

    #[test]
    fn the_earliest_start_is_the_first_without_an_overlap() {
        let mut random = Random::new(2);
        for _ in 0..200 {
            let held = [some_flow(&mut random)];
            let flow = some_flow(&mut random);
            let first = (0..flow.period).find(|&start| !overlap(&flow.starting(start), &held[0]));
            assert_eq!(earliest(&flow, &held, CYCLE), first);
            assert_eq!(pieces::earliest(&flow, &held, CYCLE), first);
        }
    }
}
