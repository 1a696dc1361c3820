//! A run of the network, instant by instant: frames, queues, gates and best effort.

use crate::flow::Flow;
use crate::gates::{BEST_EFFORT, SCHEDULED};
use crate::line::Line;
use crate::plan::Setup;
use crate::random::Random;
use std::cmp::Reverse;
use std::collections::BinaryHeap;

pub struct Network<'a> {
    pub line: &'a Line,
    pub setup: &'a Setup,
    pub flows: &'a [Flow],
    /// For each port the state of every place of the cycle.
    pub states: &'a [Vec<u8>],
}

/// Which best-effort frames begin where the gates let them.
#[derive(Clone, Copy, Debug)]
pub enum BestEffort {
    None,
    /// The largest, whenever one may begin.
    Largest,
    /// Of any length, now and then.
    Some,
}

/// A frame at a hop. The order is that of a queue: by ready instant, then by flow number.
#[derive(Clone, Copy, Debug, PartialEq, Eq, PartialOrd, Ord)]
pub struct Frame {
    pub ready: u64,
    pub number: u16,
    pub flow: usize,
    pub hop: usize,
    /// The instant at which the frame was ready at hop 0.
    pub started: u64,
}

#[derive(Clone, Copy, Debug, PartialEq, Eq)]
pub enum Outcome {
    /// No frame waited, and every arrival was within its deadline.
    OnTime {
        arrivals: u64,
    },
    Waits(Frame),
    Late(Frame),
}

/// Runs the network from instant 0 up to `end`, or to the first frame that waits or is late.
pub fn run(network: &Network, best_effort: BestEffort, end: u64, random: &mut Random) -> Outcome {
    let ports = network.line.ports();
    let mut state = State {
        network,
        coming: network.flows.iter().enumerate().map(|(k, flow)| Reverse(first_frame(k, flow))).collect(),
        queues: vec![Vec::new(); ports],
        idle_from: vec![0; ports],
        arrivals: 0,
    };
    for t in 0..end {
        state.make_ready(t);
        for port in 0..ports {
            if state.idle_from[port] <= t {
                if let Some(late) = state.send(port, t, best_effort, random) {
                    return Outcome::Late(late);
                }
            }
            if let Some(&frame) = state.queues[port].iter().find(|frame| frame.ready == t) {
                return Outcome::Waits(frame);
            }
        }
    }
    Outcome::OnTime { arrivals: state.arrivals }
}

fn first_frame(k: usize, flow: &Flow) -> Frame {
    Frame { ready: flow.start, number: flow.number, flow: k, hop: 0, started: flow.start }
}

struct State<'a> {
    network: &'a Network<'a>,
    /// Frames that will be ready.
    coming: BinaryHeap<Reverse<Frame>>,
    queues: Vec<Vec<Frame>>,
    idle_from: Vec<u64>,
    arrivals: u64,
}

impl State<'_> {
    /// Puts the frames that are ready now into their queues.
    fn make_ready(&mut self, t: u64) {
        while let Some(&Reverse(frame)) = self.coming.peek() {
            if frame.ready > t {
                break;
            }
            self.coming.pop();
            let flow = &self.network.flows[frame.flow];
            if frame.hop == 0 {
                let next = frame.ready + flow.period;
                self.coming.push(Reverse(Frame { ready: next, started: next, ..frame }));
            }
            self.queues[flow.hops[frame.hop].port].push(frame);
        }
    }

    /// Begins what may begin on an idle wire; answers a frame that is too late.
    fn send(&mut self, port: usize, t: u64, best_effort: BestEffort, random: &mut Random) -> Option<Frame> {
        let head = self.queues[port].iter().copied().min();
        match head {
            Some(frame) if self.may_begin(frame, port, t) => {
                self.queues[port].retain(|&queued| queued != frame);
                self.begin(frame, port, t)
            }
            _ => {
                self.begin_best_effort(port, t, best_effort, random);
                None
            }
        }
    }

    fn may_begin(&self, frame: Frame, port: usize, t: u64) -> bool {
        let wire = self.network.flows[frame.flow].hops[frame.hop].wire;
        (t..t + wire).all(|instant| self.state_at(port, instant) == SCHEDULED)
    }

    fn state_at(&self, port: usize, t: u64) -> u8 {
        self.network.states[port][(t % self.network.setup.cycle) as usize]
    }

    fn begin(&mut self, frame: Frame, port: usize, t: u64) -> Option<Frame> {
        let flow = &self.network.flows[frame.flow];
        let figures = &self.network.setup.ports[port];
        let ended = t + flow.hops[frame.hop].wire;
        self.idle_from[port] = ended;
        let arrival = ended + figures.propagation;
        if frame.hop + 1 < flow.hops.len() {
            self.coming.push(Reverse(Frame { ready: arrival + figures.processing, hop: frame.hop + 1, ..frame }));
            return None;
        }
        self.arrivals += 1;
        (arrival - frame.started > flow.deadline).then_some(frame)
    }

    fn begin_best_effort(&mut self, port: usize, t: u64, best_effort: BestEffort, random: &mut Random) {
        if self.state_at(port, t) != BEST_EFFORT {
            return;
        }
        let largest = self.network.setup.ports[port].best_effort;
        let length = match best_effort {
            BestEffort::None => return,
            BestEffort::Largest => largest,
            BestEffort::Some if random.chance(90) => return,
            BestEffort::Some => random.within(64, largest),
        };
        self.idle_from[port] = t + self.network.line.wire_time(port, length);
    }
}
