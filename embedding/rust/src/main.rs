//! The worked case from Rust: two ports at 1,000 Mb/s, a cycle of 1,000,000 ns, and flows 7 and 9.
mod givrethans;

use givrethans::{octets, perform, Answer, Call, Line, ANSWER, LONGEST_GATE_LIST};

const GATE_RECORD: usize = 5;

const MOST_CALLS: usize = 8;

/// An octet to be found again where nothing is written.
const UNTOUCHED: u8 = 0xa5;

/// Two port records: propagation delay 100, processing delay 1,000, best effort up to 1,522 octets.
const PORTS: [u8; 16] = [
    0x00, 0x32, 0x00, 0x1f, 0x40, 0xbe, 0x40, 0x00, // port 0
    0x00, 0x32, 0x00, 0x1f, 0x40, 0xbe, 0x40, 0x00, // port 1
];

/// Two flow records. Flow 7: length 100, period 500,000, deadline 20,000, over ports 0 and 1.
/// Flow 9: length 1,000, period 1,000,000, deadline 20,000, on port 1. Neither start is chosen.
const FLOWS: [u8; 42] = [
    0x00, 0x07, 0x01, 0x90, 0x00, 0x7a, 0x12, 0x00, 0x00, 0x13, 0x88, //
    0x00, 0x00, 0x00, 0x00, 0x10, 0x02, 0x00, 0x00, 0x00, 0x00, //
    0x00, 0x09, 0x0f, 0xa0, 0x00, 0xf4, 0x24, 0x00, 0x00, 0x13, 0x88, //
    0x00, 0x00, 0x00, 0x00, 0x08, 0x40, 0x00, 0x00, 0x00, 0x00, //
];

const SET_UP: Call = Call::SetUp {
    cycle: 1_000_000,
    ports: &PORTS,
};

fn offer(index: u64) -> Call<'static> {
    Call::Offer {
        index,
        flows: &FLOWS,
    }
}

fn hex(octets: &[u8]) -> String {
    let words: Vec<String> = octets.iter().map(|octet| format!("{octet:02x}")).collect();
    words.join(" ")
}

fn print_gate(record: &[u8]) {
    let state = match record[0] {
        0x80 => "scheduled",
        0x7f => "best effort",
        _ => "closed",
    };
    let duration = u32::from_be_bytes([record[1], record[2], record[3], record[4]]);
    println!("  {}  {state} for {duration} ns", hex(record));
}

/// Performs the calls, with room for some answers, and prints what they came to. Only the last of them may have asked
/// for a gate list.
fn show(title: &str, line: &Line, calls: &[u8], room: usize) {
    let mut answers = vec![UNTOUCHED; MOST_CALLS * ANSWER];
    let mut buffer = vec![UNTOUCHED; LONGEST_GATE_LIST];
    let outcome = perform(line, calls, &mut answers[..room * ANSWER], &mut buffer);

    println!("{title}");
    match outcome {
        Ok(count) => println!("  returned {count}"),
        Err(code) => println!("  returned {code}"),
    }
    let (told, behind) = answers.split_at(outcome.unwrap_or(0) * ANSWER);
    let mut gates = 0;
    for octets in told.chunks_exact(ANSWER) {
        let answer = Answer(octets.try_into().expect("16 octets"));
        println!("  {}  {answer}", hex(octets));
        gates = answer.gate_records().unwrap_or(gates);
    }
    let (list, free) = buffer.split_at(gates * GATE_RECORD);
    list.chunks_exact(GATE_RECORD).for_each(print_gate);
    if behind.iter().chain(free).all(|octet| *octet == UNTOUCHED) {
        println!("  nothing written behind");
    }
}

/// The calls of the worked case: set-up, both offers, the flowspan, and the gate list of a port.
fn worked(port: u8) -> Vec<u8> {
    octets(&[
        SET_UP,
        offer(0),
        offer(1),
        Call::Flowspan,
        Call::GateList { port },
    ])
}

/// Calls that are refused, a withdrawal, and the question for a start.
fn refused() -> Vec<u8> {
    octets(&[
        Call::Flowspan,
        SET_UP,
        offer(0),
        offer(2),
        Call::Start { number: 7 },
        Call::Withdrawal { number: 7 },
        Call::Start { number: 7 },
        Call::GateList { port: 2 },
    ])
}

fn main() {
    let line = Line::Ethernet { codes: &[3, 3] };
    let second = worked(1);
    let cut = &second[..second.len() - 1];
    let cells = |size| Line::Cells {
        ports: 2,
        size,
        time: 680,
    };

    show("ethernet, gate list of port 0", &line, &worked(0), 8);
    show("ethernet, gate list of port 1", &line, &second, 8);
    show("ethernet, refusals", &line, &refused(), 8);
    show(
        "cells of 64 octets and 680 ns, gate list of port 1",
        &cells(64),
        &second,
        8,
    );
    show(
        "a rate code that is none",
        &Line::Ethernet { codes: &[3, 4] },
        &second,
        8,
    );
    show("cells of 63 octets", &cells(63), &second, 8);
    show("the last call cut short", &line, cut, 8);
    show("room for four answers", &line, &second, 4);
}
