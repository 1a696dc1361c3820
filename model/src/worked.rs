//! The worked example of the README and the examples of the documents, on the model.

use crate::calls::{encode, Answer, Call, ANSWER_SIZE};
use crate::fault::Fault;
use crate::flow::Flow;
use crate::gates::{octets, states};
use crate::line::{Filling, Line};
use crate::plan::{gate_list_of, Plan, Setup};
use crate::planner::{Model, Planner};
use crate::random::Random;
use crate::records::{write_flow, write_port, FlowRecord, Port};
use crate::run::{run, BestEffort, Network, Outcome};

const PORT: Port = Port { propagation: 100, processing: 1_000, best_effort: 1_522 };

fn flow(number: u16, length: u64, period: u64, start: Option<u64>, route: &[u8]) -> FlowRecord {
    FlowRecord { number, length, period, deadline: 20_000, start, route: route.to_vec() }
}

fn set_up() -> Call {
    Call::SetUp { cycle: 1_000_000, sheet: [write_port(&PORT); 2].concat() }
}

fn offer(index: u64) -> Call {
    let flows = [
        flow(7, 100, 500_000, None, &[0, 1]),
        flow(9, 1_000, 1_000_000, None, &[1]),
        flow(10, 100, 300_000, None, &[0]),
        flow(11, 100, 500_000, Some(0), &[0]),
    ];
    Call::Offer { index, sheet: flows.iter().flat_map(write_flow).collect() }
}

fn line() -> Line {
    Line::new(&Filling::Ethernet(vec![3, 3])).unwrap()
}

fn refused(number: u8) -> Answer {
    Answer::Refused(Fault::plan(number))
}

#[test]
fn the_worked_example() {
    let steps = [
        (Call::Flowspan, refused(4)),
        (set_up(), Answer::Done),
        (set_up(), refused(4)),
        (offer(0), Answer::Start(0)),
        (offer(1), Answer::Start(2_828)),
        (offer(2), refused(9)),
        (offer(3), refused(15)),
        (offer(4), Answer::Refused(Fault::unfinished(4))),
        (Call::StartOf(9), Answer::Start(2_828)),
        (Call::Flowspan, Answer::Flowspan(10_992)),
        (Call::GateList(1), Answer::Records(7)),
        (Call::Withdraw(9), Answer::Done),
        (Call::StartOf(9), refused(8)),
        (Call::Flowspan, Answer::Flowspan(2_928)),
        (Call::GateList(2), refused(8)),
    ];
    let mut plan = Plan::new(line());
    let mut buffer = [0xaa; 40];
    for (call, answer) in &steps {
        assert_eq!(plan.perform(call, &mut buffer), *answer, "{call:?}");
    }
    assert_eq!(buffer[..10], [0x00, 0x00, 0x00, 0x07, 0xac, 0x80, 0x00, 0x00, 0x22, 0xe0]);
    assert_eq!(buffer[35..], [0xaa; 5]);
}

#[test]
fn the_gate_list_of_port_1() {
    let mut plan = Plan::new(line());
    for call in [set_up(), offer(0), offer(1)] {
        plan.perform(&call, &mut []);
    }
    let list = gate_list_of(&plan.line, plan.setup.as_ref().unwrap(), &plan.flows, 1);
    let expected = [
        (0x00, 1_964),
        (0x80, 8_928),
        (0x7f, 489_724 - 10_892),
        (0x00, 12_240),
        (0x80, 864),
        (0x7f, 989_724 - 502_828),
        (0x00, 10_276),
    ];
    assert_eq!(list, expected);
    let mut short = vec![0xaa; 34];
    assert_eq!(plan.perform(&Call::GateList(1), &mut short), refused(16));
    assert_eq!(short, [0xaa; 34]);
    let mut exact = vec![0xaa; 35];
    assert_eq!(plan.perform(&Call::GateList(1), &mut exact), Answer::Records(7));
    assert_eq!(exact, octets(&expected));
}

#[test]
fn the_worked_example_in_octets() {
    let list = encode(&[set_up(), offer(0), offer(3), Call::GateList(0)]);
    let mut answers = vec![0xaa; 4 * ANSWER_SIZE + 3];
    let mut buffer = vec![0xaa; 4];
    let filling = Filling::Ethernet(vec![3, 3]);
    assert_eq!(Model.perform(&filling, &list, &mut answers, &mut buffer), 4);
    assert_eq!(answers[32..48], [0xff, 15, 3, 0, 0, 0, 0, 0, 0, 0, 0, 0, 0, 0, 0, 0]);
    assert_eq!(answers[64..], [0xaa; 3]);
    assert_eq!(buffer, [0xaa; 4]);
    assert_eq!(Model.perform(&filling, &list, &mut answers[..63], &mut buffer), -3);
    assert_eq!(Model.perform(&filling, &list[1..], &mut answers, &mut buffer), -2);
    assert_eq!(Model.perform(&Filling::Ethernet(vec![]), &list[1..], &mut [], &mut buffer), -1);
}

#[test]
fn a_run_of_the_worked_example() {
    let line = line();
    let setup = Setup { cycle: 1_000_000, ports: vec![PORT; 2] };
    let first = Flow::of(&flow(7, 100, 500_000, None, &[0, 1]), &line, &setup.ports);
    let second = Flow::of(&flow(9, 1_000, 1_000_000, None, &[1]), &line, &setup.ports);
    for (start, waits) in [(2_828, false), (2_827, true), (0, true)] {
        let flows = [first.clone(), second.starting(start)];
        let guard = 12_240;
        let states: Vec<_> =
            (0..2).map(|port| states(&crate::flow::spans_on(&flows, port, setup.cycle), guard, setup.cycle)).collect();
        let network = Network { line: &line, setup: &setup, flows: &flows, states: &states };
        for best_effort in [BestEffort::None, BestEffort::Largest, BestEffort::Some] {
            let outcome = run(&network, best_effort, 2_100_000, &mut Random::new(5));
            assert_eq!(matches!(outcome, Outcome::Waits(_)), waits, "{start}: {outcome:?}");
            assert_eq!(outcome == Outcome::OnTime { arrivals: 5 + 3 }, !waits, "{start}: {outcome:?}");
        }
    }
}
