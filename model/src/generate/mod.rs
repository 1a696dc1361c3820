//! Random lists of calls, sound and damaged.

mod damage;
mod flows;
mod scene;

use crate::calls::{encode, Call, ANSWER_SIZE};
use crate::line::Filling;
use crate::random::Random;
use flows::Offers;
use scene::{Crowd, Scene};

/// One list of calls with all that goes with it. What the two buffers hold before is random.
#[derive(Clone, Debug)]
pub struct Case {
    pub filling: Filling,
    pub list: Vec<u8>,
    pub answers: Vec<u8>,
    pub buffer: Vec<u8>,
}

/// A case by the next random numbers.
pub fn case(random: &mut Random) -> Case {
    let scene = Scene::new(random);
    let calls = calls(&scene, random);
    let mut list = encode(&calls);
    if random.chance(4) {
        list = damage::list(list, random);
    }
    let answers = answers_length(calls.len() * ANSWER_SIZE, random);
    let buffer = buffer_length(random);
    let filling = if random.chance(2) { damage::filling(random) } else { scene.filling };
    Case { filling, list, answers: random.octets(answers), buffer: random.octets(buffer) }
}

fn calls(scene: &Scene, random: &mut Random) -> Vec<Call> {
    let mut offers = Offers::new(scene);
    let mut calls = Vec::new();
    if random.chance(3) {
        calls.push(any_call(&mut offers, random));
    }
    if random.chance(97) {
        calls.push(set_up(scene, random));
    }
    let (sound, others) = match scene.crowd {
        Crowd::None => (random.below(12), 24),
        _ => (random.within(70, 95), 14),
    };
    calls.extend((0..sound).map(|_| offers.sound(random)));
    calls.extend((0..random.below(others)).map(|_| any_call(&mut offers, random)));
    calls
}

fn any_call(offers: &mut Offers, random: &mut Random) -> Call {
    match random.below(100) {
        0..=49 => offers.any(random),
        50..=59 => Call::Withdraw(offers.number(random)),
        60..=66 => Call::StartOf(offers.number(random)),
        67..=72 => Call::Flowspan,
        73..=94 => Call::GateList(port(offers.scene, random)),
        _ => set_up(offers.scene, random),
    }
}

fn port(scene: &Scene, random: &mut Random) -> u8 {
    match random.below(100) {
        0..=91 => random.below(scene.ports.len() as u64) as u8,
        92..=96 => scene.ports.len() as u8,
        _ => random.pick(&[31, 32, 255]),
    }
}

fn set_up(scene: &Scene, random: &mut Random) -> Call {
    let mut cycle = scene.cycle as u32;
    let mut sheet = scene.sheet();
    if random.chance(4) {
        cycle = random.pick(&[0, 1, 999, 1_000_000_001, u32::MAX]);
    }
    if random.chance(6) {
        damage::ports(&mut sheet, random);
    }
    Call::SetUp { cycle, sheet }
}

/// Mostly room for the answers and a little more.
fn answers_length(needed: usize, random: &mut Random) -> usize {
    match random.below(100) {
        0..=2 => random.below(needed as u64 + 1) as usize,
        3 => needed.saturating_sub(1),
        4..=19 => needed,
        _ => needed + random.below(40) as usize,
    }
}

/// From none at all to more than the longest gate list.
fn buffer_length(random: &mut Random) -> usize {
    match random.below(10) {
        0 => random.below(16) as usize,
        1..=3 => random.below(300) as usize,
        4..=6 => random.within(300, 2_000) as usize,
        _ => random.within(15_365, 15_400) as usize,
    }
}
