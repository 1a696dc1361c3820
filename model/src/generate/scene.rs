//! The line, the cycle and the ports of a case.

use crate::line::{Filling, Line};
use crate::random::Random;
use crate::records::{write_port, Port};

pub struct Scene {
    pub filling: Filling,
    pub line: Line,
    pub cycle: u64,
    pub ports: Vec<Port>,
    /// How many periods of one flow the cycle may hold.
    pub parts: Vec<u64>,
    pub crowd: Crowd,
}

/// Whether a case is to have many short flows, so that the plan gets full.
#[derive(Clone, Copy, PartialEq, Eq)]
pub enum Crowd {
    None,
    /// Close together, most of them without a chosen start.
    Packed,
    /// Far apart, at chosen starts: gate lists get long.
    Spread,
}

impl Scene {
    pub fn new(random: &mut Random) -> Scene {
        let crowd = match random.below(100) {
            0..=2 => Crowd::Packed,
            3 => Crowd::Spread,
            _ => Crowd::None,
        };
        let cycle = cycle(crowd, random);
        let count = random.pick(&[1, 1, 2, 2, 3, 3, 4, 5, 6, 8, 10, 32]);
        let count = if random.chance(5) { random.within(1, 32) } else { count };
        let filling = if cycle < 6_000 || random.chance(40) {
            cells(count, cycle, crowd, random)
        } else {
            ethernet(count, cycle, random)
        };
        let line = Line::new(&filling).expect("the generator keeps the limits of the lines");
        let ports = (0..count).map(|_| port(&line, &filling, cycle, random)).collect();
        let parts = (1..=16).filter(|&part| cycle.is_multiple_of(part)).collect();
        Scene { filling, line, cycle, ports, parts, crowd }
    }

    pub fn sheet(&self) -> Vec<u8> {
        self.ports.iter().flat_map(write_port).collect()
    }
}

fn cycle(crowd: Crowd, random: &mut Random) -> u64 {
    if random.chance(3) {
        return random.pick(&[1_000, 1_000_000_000]);
    }
    let (least, most) = match random.below(100) {
        _ if crowd == Crowd::Spread || crowd == Crowd::Packed && random.chance(50) => (20_000_000, 1_000_000_000),
        0..=44 => (1_000, 6_000),
        45..=59 => (6_000, 12_000),
        60..=69 => (12_000, 100_000),
        70..=84 => (100_000, 20_000_000),
        _ => (20_000_000, 1_000_000_000),
    };
    let any = random.within(least, most);
    let step = random.pick(&[1, 1, 12, 24, 60, 120, 240, 360, 720, 840, 5_040, 720_720]);
    let whole = any / step * step;
    if whole < least {
        any
    } else {
        whole
    }
}

fn ethernet(count: u64, cycle: u64, random: &mut Random) -> Filling {
    let codes: &[u8] = match cycle {
        _ if random.chance(5) => &[1, 2, 3],
        20_000_000.. => &[1, 2, 3, 3],
        1_000_000.. => &[2, 3, 3],
        _ => &[3],
    };
    Filling::Ethernet((0..count).map(|_| random.pick(codes)).collect())
}

fn cells(count: u64, cycle: u64, crowd: Crowd, random: &mut Random) -> Filling {
    let size = match random.below(10) {
        0 => 64,
        1 => 1_024,
        2..=5 => random.within(64, 130),
        _ => random.within(64, 1_024),
    };
    let share = if crowd != Crowd::None { 3_000 } else { random.pick(&[30, 100, 300, 1_000]) };
    let time = random.within(1, cycle / share + 1).min(100_000);
    Filling::Cells { ports: count as u8, size: size as u16, time: time as u32 }
}

fn port(line: &Line, filling: &Filling, cycle: u64, random: &mut Random) -> Port {
    Port {
        propagation: delay(100_000, cycle, random),
        processing: delay(1_000_000, cycle, random),
        best_effort: match (filling, random.below(10)) {
            (_, 0) => line.largest(),
            (_, 1) => 64,
            (Filling::Cells { size, .. }, 2..=7) => random.within(64, u64::from(*size).clamp(64, 500) * 4),
            _ => random.within(64, line.largest()),
        },
    }
}

/// A delay, mostly short beside the cycle.
fn delay(most: u64, cycle: u64, random: &mut Random) -> u64 {
    match random.below(20) {
        0 => random.within(0, most),
        1 => most,
        2..=4 => 0,
        5..=8 => random.below(cycle.min(most) + 1),
        _ => random.below((cycle / 20).min(most) + 1),
    }
}
