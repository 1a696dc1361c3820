//! Lists of calls and answers in octets.

use crate::fault::Fault;

#[derive(Clone, Debug, PartialEq, Eq)]
pub enum Call {
    SetUp { cycle: u32, sheet: Vec<u8> },
    Offer { index: u64, sheet: Vec<u8> },
    Withdraw(u16),
    StartOf(u16),
    Flowspan,
    GateList(u8),
}

#[derive(Clone, Copy, Debug, PartialEq, Eq)]
pub enum Answer {
    Done,
    Start(u64),
    Flowspan(u64),
    Records(u64),
    Refused(Fault),
}

pub const ANSWER_SIZE: usize = 16;

impl Call {
    pub fn encode(&self) -> Vec<u8> {
        match self {
            Call::SetUp { cycle, sheet } => with_sheet(1, &cycle.to_be_bytes(), sheet),
            Call::Offer { index, sheet } => with_sheet(2, &index.to_be_bytes(), sheet),
            Call::Withdraw(number) => [&[3][..], &number.to_be_bytes()].concat(),
            Call::StartOf(number) => [&[4][..], &number.to_be_bytes()].concat(),
            Call::Flowspan => vec![5],
            Call::GateList(port) => vec![6, *port],
        }
    }
}

fn with_sheet(kind: u8, figure: &[u8], sheet: &[u8]) -> Vec<u8> {
    let length = u16::try_from(sheet.len()).expect("a sheet of a call has at most 65,535 octets");
    [&[kind][..], figure, &length.to_be_bytes(), sheet].concat()
}

pub fn encode(calls: &[Call]) -> Vec<u8> {
    calls.iter().flat_map(Call::encode).collect()
}

/// The calls of a list, or nothing where it is none.
pub fn decode(mut list: &[u8]) -> Option<Vec<Call>> {
    let mut calls = Vec::new();
    while !list.is_empty() {
        calls.push(take_call(&mut list)?);
    }
    Some(calls)
}

fn take_call(list: &mut &[u8]) -> Option<Call> {
    Some(match take_number(list, 1)? {
        1 => Call::SetUp { cycle: take_number(list, 4)? as u32, sheet: take_sheet(list)? },
        2 => Call::Offer { index: take_number(list, 8)?, sheet: take_sheet(list)? },
        3 => Call::Withdraw(take_number(list, 2)? as u16),
        4 => Call::StartOf(take_number(list, 2)? as u16),
        5 => Call::Flowspan,
        6 => Call::GateList(take_number(list, 1)? as u8),
        _ => return None,
    })
}

fn take_sheet(list: &mut &[u8]) -> Option<Vec<u8>> {
    let length = take_number(list, 2)? as usize;
    take(list, length).map(<[u8]>::to_vec)
}

fn take_number(list: &mut &[u8], octets: usize) -> Option<u64> {
    take(list, octets).map(|octets| octets.iter().fold(0, |number, &octet| number << 8 | u64::from(octet)))
}

fn take<'a>(list: &mut &'a [u8], count: usize) -> Option<&'a [u8]> {
    if count > list.len() {
        return None;
    }
    let (front, rest) = list.split_at(count);
    *list = rest;
    Some(front)
}

impl Answer {
    pub fn encode(&self) -> [u8; ANSWER_SIZE] {
        let mut octets = [0; ANSWER_SIZE];
        let (kind, value) = match *self {
            Answer::Done => (0, 0),
            Answer::Start(start) => (1, start),
            Answer::Flowspan(flowspan) => (2, flowspan),
            Answer::Records(records) => (3, records),
            Answer::Refused(fault) => (0xff, fault.index),
        };
        octets[0] = kind;
        octets[8..].copy_from_slice(&value.to_be_bytes());
        if let Answer::Refused(fault) = *self {
            octets[1] = fault.number;
            octets[2] = fault.layer;
            octets[3] = fault.hop;
            octets[4..6].copy_from_slice(&fault.bit.to_be_bytes());
        }
        octets
    }
}

#[cfg(test)]
mod tests {
    use super::*;

    #[test]
    fn a_list_reads_back_and_no_shorter_one_is_taken_for_it() {
        let calls = vec![
            Call::SetUp { cycle: 1_000, sheet: vec![7; 9] },
            Call::Offer { index: u64::MAX, sheet: vec![] },
            Call::Withdraw(0x0102),
            Call::StartOf(3),
            Call::Flowspan,
            Call::GateList(31),
        ];
        let list = encode(&calls);
        assert_eq!(decode(&list), Some(calls));
        assert_eq!(decode(&list[..list.len() - 1]), None);
        assert_eq!(decode(&[7]), None);
        assert_eq!(decode(&[0]), None);
        assert_eq!(decode(&[]), Some(vec![]));
    }
}
