//! Gate states and gate lists, from the words of their definition.

use crate::flow::Span;
use crate::pieces::around;
use crate::records::write_gate;

pub const SCHEDULED: u8 = 0x80;
pub const BEST_EFFORT: u8 = 0x7f;
pub const CLOSED: u8 = 0x00;

/// A state and for how many places it lasts.
pub type Stretch = (u8, u64);

/// The state of every place of the cycle, one by one.
pub fn states(spans: &[Span], guard: u64, cycle: u64) -> Vec<u8> {
    let mut covered = vec![false; cycle as usize];
    let mut first = vec![false; cycle as usize];
    for span in spans {
        first[span.place as usize] = true;
        for t in span.place..span.place + span.wire.min(cycle) {
            covered[(t % cycle) as usize] = true;
        }
    }
    let ahead = distances(&first);
    (0..cycle as usize)
        .map(|y| match ahead[y] {
            _ if covered[y] => SCHEDULED,
            Some(distance) if distance <= guard => CLOSED,
            _ => BEST_EFFORT,
        })
        .collect()
}

/// From each place the distance up to the next one that is set, round the cycle.
fn distances(set: &[bool]) -> Vec<Option<u64>> {
    let mut ahead = vec![None; set.len()];
    let mut distance: Option<u64> = None;
    for y in (0..set.len()).chain(0..set.len()).rev() {
        distance = if set[y] { Some(0) } else { distance.map(|d| d + 1) };
        ahead[y] = distance;
    }
    ahead
}

/// States one by one, told as stretches.
pub fn stretches(states: impl IntoIterator<Item = Stretch>) -> Vec<Stretch> {
    let mut list: Vec<Stretch> = Vec::new();
    for (state, duration) in states {
        match list.last_mut() {
            Some(last) if last.0 == state => last.1 += duration,
            _ => list.push((state, duration)),
        }
    }
    list
}

/// The gate list by going from place to place; for small cycles.
pub fn list_by_places(spans: &[Span], guard: u64, cycle: u64) -> Vec<Stretch> {
    stretches(states(spans, guard, cycle).into_iter().map(|state| (state, 1)))
}

/// The gate list by the places at which something changes; for any cycle.
pub fn list_by_pieces(spans: &[Span], guard: u64, cycle: u64) -> Vec<Stretch> {
    let mut changes = vec![Change::none(0), Change::none(cycle)];
    for span in spans {
        for (from, to) in around(span.place, span.wire, cycle) {
            changes.extend([Change { place: from, covers: 1, guards: 0 }, Change { place: to, covers: -1, guards: 0 }]);
        }
        for (from, to) in guarded(span.place, guard, cycle) {
            changes.extend([Change { place: from, covers: 0, guards: 1 }, Change { place: to, covers: 0, guards: -1 }]);
        }
    }
    changes.sort_unstable_by_key(|change| change.place);
    sweep(&changes)
}

/// The places y with (place - y) modulo the cycle at most the guard.
fn guarded(place: u64, guard: u64, cycle: u64) -> Vec<(u64, u64)> {
    let guard = guard.min(cycle - 1);
    around((place + cycle - guard) % cycle, guard + 1, cycle)
}

/// From `place` on so many more spans cover, and so many more guard.
struct Change {
    place: u64,
    covers: i32,
    guards: i32,
}

impl Change {
    fn none(place: u64) -> Change {
        Change { place, covers: 0, guards: 0 }
    }
}

fn sweep(changes: &[Change]) -> Vec<Stretch> {
    let mut list = Vec::new();
    let mut covers = 0;
    let mut guards = 0;
    for pair in changes.windows(2) {
        covers += pair[0].covers;
        guards += pair[0].guards;
        let state = match (covers, guards) {
            (1.., _) => SCHEDULED,
            (_, 1..) => CLOSED,
            _ => BEST_EFFORT,
        };
        if pair[0].place < pair[1].place {
            list.push((state, pair[1].place - pair[0].place));
        }
    }
    stretches(list)
}

/// The records of a gate list, back to back.
pub fn octets(list: &[Stretch]) -> Vec<u8> {
    list.iter().flat_map(|&(state, duration)| write_gate(state, duration)).collect()
}

#[cfg(test)]
mod tests {
    use super::*;
    use crate::random::Random;

    /// The state of one place by the words of the definition, span by span.
    fn state_in_words(y: u64, spans: &[Span], guard: u64, cycle: u64) -> u8 {
        if spans.iter().any(|span| (span.place..span.place + span.wire).any(|t| t % cycle == y)) {
            SCHEDULED
        } else if spans.iter().any(|span| (span.place + cycle - y) % cycle <= guard) {
            CLOSED
        } else {
            BEST_EFFORT
        }
    }

    #[test]
    fn both_ways_agree_with_the_words() {
        let mut random = Random::new(3);
        for _ in 0..500 {
            let cycle = random.within(1, 90);
            let count = random.below(4);
            let spans: Vec<Span> =
                (0..count).map(|_| Span { place: random.below(cycle), wire: random.within(1, 12) }).collect();
            let guard = random.below(20);
            let words = stretches((0..cycle).map(|y| (state_in_words(y, &spans, guard, cycle), 1)));
            assert_eq!(list_by_places(&spans, guard, cycle), words);
            assert_eq!(list_by_pieces(&spans, guard, cycle), words);
        }
    }
}
