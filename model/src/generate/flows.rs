//! Flow records, and offers of them.

use super::damage;
use super::scene::{Crowd, Scene};
use crate::calls::Call;
use crate::flow::Flow;
use crate::line::Filling;
use crate::random::Random;
use crate::records::{write_flow, FlowRecord, FLOW_SIZE};

pub struct Offers<'a> {
    pub scene: &'a Scene,
    fresh: u16,
    /// Flows with a chosen start that were made before.
    earlier: Vec<Flow>,
}

impl<'a> Offers<'a> {
    pub fn new(scene: &'a Scene) -> Offers<'a> {
        Offers { scene, fresh: 0, earlier: Vec::new() }
    }

    /// A number that a flow may have.
    pub fn number(&self, random: &mut Random) -> u16 {
        match random.below(20) {
            0 => 0,
            1 => random.draw() as u16,
            _ => random.within(1, u64::from(self.fresh) + 1) as u16,
        }
    }

    /// An offer of a record without damage; it may still be refused.
    pub fn sound(&mut self, random: &mut Random) -> Call {
        let record = self.record(random);
        Call::Offer { index: 0, sheet: write_flow(&record).to_vec() }
    }

    /// An offer of some record of a sheet, both perhaps damaged.
    pub fn any(&mut self, random: &mut Random) -> Call {
        if random.below(300) == 0 {
            return self.in_a_long_sheet(random);
        }
        let count = random.pick(&[0, 1, 1, 1, 1, 2, 2, 3, 5]);
        let mut sheet = Vec::new();
        for _ in 0..count {
            let mut octets = write_flow(&self.record(random));
            if random.chance(25) {
                damage::flow(&mut octets, random);
            }
            sheet.extend(octets);
        }
        if random.chance(8) {
            let more = random.below(FLOW_SIZE as u64) as usize;
            sheet.extend(random.octets(more));
        }
        let index = if count == 0 || random.chance(5) { wrong_index(count, random) } else { random.below(count) };
        Call::Offer { index, sheet }
    }

    /// An offer of one record among many, most of which are no records at all.
    fn in_a_long_sheet(&mut self, random: &mut Random) -> Call {
        let mut sheet = random.octets(usize::from(u16::MAX));
        let whole = (sheet.len() / FLOW_SIZE) as u64;
        let index = random.pick(&[0, 1, whole / 2, whole - 1]);
        sheet[index as usize * FLOW_SIZE..][..FLOW_SIZE].copy_from_slice(&write_flow(&self.record(random)));
        Call::Offer { index: if random.chance(90) { index } else { whole }, sheet }
    }

    fn record(&mut self, random: &mut Random) -> FlowRecord {
        self.fresh = self.fresh.saturating_add(1);
        let period = self.period(random);
        let route = self.route(random);
        let length = self.length(random);
        let number = if random.chance(90) { self.fresh } else { self.number(random) };
        let mut record = FlowRecord { number, length, period, deadline: 0, start: None, route };
        let timed = self.timed(&record);
        record.deadline = deadline(timed.as_ref(), random);
        record.start = self.start(&record, timed.as_ref(), random);
        if let (Some(flow), Some(start)) = (timed, record.start) {
            self.earlier.push(flow.starting(start));
        }
        record
    }

    /// The hops of a record, if all its ports are there.
    fn timed(&self, record: &FlowRecord) -> Option<Flow> {
        let there = record.route.iter().all(|&port| usize::from(port) < self.scene.ports.len());
        there.then(|| Flow::of(record, &self.scene.line, &self.scene.ports))
    }

    fn period(&self, random: &mut Random) -> u64 {
        let cycle = self.scene.cycle;
        match random.below(100) {
            _ if self.scene.crowd == Crowd::Packed && random.chance(95) => cycle / random.pick(&self.scene.parts),
            _ if self.scene.crowd == Crowd::Spread && random.chance(95) => cycle / self.most_parts(),
            0..=93 => cycle / random.pick(&self.scene.parts),
            94..=96 => (cycle / random.within(1, 40)).max(1),
            97 => random.within(1, cycle),
            98 => (2 * cycle).min(1_000_000_000),
            _ => random.within(1, 1_000_000_000),
        }
    }

    fn most_parts(&self) -> u64 {
        self.scene.parts.iter().copied().max().unwrap_or(1)
    }

    fn route(&self, random: &mut Random) -> Vec<u8> {
        let count = self.scene.ports.len() as u64;
        let hops = random.pick(&[1, 1, 1, 2, 2, 3, 4, 8]).min(count) as usize;
        let mut ports: Vec<u8> = (0..count as u8).collect();
        for k in 0..hops {
            let other = random.within(k as u64, count - 1) as usize;
            ports.swap(k, other);
        }
        ports.truncate(hops);
        if random.chance(4) {
            let hop = random.below(hops as u64) as usize;
            ports[hop] = if random.chance(50) { random.below(32) as u8 } else { ports[0] };
        }
        ports
    }

    fn length(&self, random: &mut Random) -> u64 {
        let largest = self.scene.line.largest();
        let short = match &self.scene.filling {
            Filling::Ethernet(_) => 200,
            Filling::Cells { size, .. } => (u64::from(*size) * 3).min(largest),
        };
        match random.below(100) {
            0..=1 => random.pick(&[largest, largest + 1, 9_600]),
            2..=4 => 64,
            5..=24 if self.scene.crowd == Crowd::None => random.within(64, largest),
            _ => random.within(64, short),
        }
    }

    fn start(&self, record: &FlowRecord, timed: Option<&Flow>, random: &mut Random) -> Option<u64> {
        let period = record.period;
        match random.below(100) {
            _ if self.scene.crowd == Crowd::Packed && random.chance(85) => None,
            _ if self.scene.crowd == Crowd::Spread && random.chance(95) => Some(random.below(period)),
            0..=54 => None,
            55..=74 => Some(random.below(period)),
            75..=76 => Some(0),
            77..=78 => Some(period - 1),
            79..=80 => Some(period.min(999_999_999)),
            81 => Some(random.below(1_000_000_000)),
            _ => timed.and_then(|flow| self.beside(flow, random)).or(Some(random.below(period))),
        }
    }

    /// A start at which a span ends where one of an earlier flow begins, or begins where it ends, or nearly so.
    fn beside(&self, flow: &Flow, random: &mut Random) -> Option<u64> {
        if self.earlier.is_empty() {
            return None;
        }
        let earlier = &self.earlier[random.below(self.earlier.len() as u64) as usize];
        let (hop, held) = flow
            .hops
            .iter()
            .find_map(|hop| earlier.hops.iter().find(|held| held.port == hop.port).map(|held| (hop, held)))?;
        let begin = earlier.start + held.offset;
        let from = if random.chance(50) { begin + held.wire } else { begin + earlier.period.max(hop.wire) - hop.wire };
        let off = random.pick(&[0, 0, 0, 1, flow.period - 1]);
        let back = flow.period - hop.offset % flow.period;
        Some((from + off + back) % flow.period)
    }
}

fn deadline(timed: Option<&Flow>, random: &mut Random) -> u64 {
    let total = timed.map_or(1_000, |flow| flow.total).clamp(1, 1_000_000_000);
    match random.below(100) {
        0..=4 => total,
        5..=7 => (total - 1).max(1),
        8..=9 => random.within(1, 1_000_000_000),
        10..=11 => random.within(1, 20_000),
        _ => random.within(total, 1_000_000_000),
    }
}

/// The index of a record that is not there, also one whose octets would be counted round 2^64.
fn wrong_index(count: u64, random: &mut Random) -> u64 {
    let round = u64::MAX / FLOW_SIZE as u64 + 1;
    random.pick(&[count, count, count + 1, 1 << 32, 1 << 63, round, round + count, u64::MAX])
}
