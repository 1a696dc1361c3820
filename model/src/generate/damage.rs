//! Damage to records, sheets, fillings and lists of calls.

use crate::bits::{field, put};
use crate::line::Filling;
use crate::random::Random;
use crate::records::{slot, FLOW_SIZE, PORT_SIZE};

/// Damages a flow record in one or two places.
pub fn flow(octets: &mut [u8; FLOW_SIZE], random: &mut Random) {
    for _ in 0..random.within(1, 2) {
        flow_once(octets, random);
    }
}

fn flow_once(octets: &mut [u8; FLOW_SIZE], random: &mut Random) {
    let above = random.within(1_000_000_001, (1 << 30) - 1);
    match random.below(14) {
        0 => put(octets, 165, 3, random.within(1, 7)),
        1 => unused_slot(octets, random),
        2 => {
            put(octets, 90, 1, 0);
            put(octets, 91, 30, random.within(1, (1 << 30) - 1));
        }
        3 => put(octets, 121, 4, random.within(9, 15)),
        4 => put(octets, 121, 4, 0),
        5 => {
            put(octets, 121, 4, 0);
            put(octets, 125, 40, 0);
        }
        6 => put(octets, 0, 16, 0),
        7 => put(octets, 16, 14, random.pick(&[0, 63, 9_601, 16_383])),
        8 => put(octets, 30, 30, random.pick(&[0, 1_000_000_001, above])),
        9 => put(octets, 60, 30, random.pick(&[0, 1_000_000_001, above])),
        10 => {
            put(octets, 90, 1, 1);
            put(octets, 91, 30, random.pick(&[1_000_000_000, 1_000_000_001, above]));
        }
        11 => octets.copy_from_slice(&random.octets(FLOW_SIZE)),
        _ => flip(octets, random),
    }
}

fn unused_slot(octets: &mut [u8; FLOW_SIZE], random: &mut Random) {
    let hops = field(octets, 121, 4).min(7);
    let (at, count) = slot(random.within(hops, 7) as usize);
    put(octets, at, count, random.within(1, 31));
}

fn flip(octets: &mut [u8], random: &mut Random) {
    if !octets.is_empty() {
        let bit = random.below(octets.len() as u64 * 8) as usize;
        octets[bit / 8] ^= 0x80 >> (bit % 8);
    }
}

/// Damages a sheet of port records.
pub fn ports(sheet: &mut Vec<u8>, random: &mut Random) {
    let index = random.below((sheet.len() / PORT_SIZE) as u64) as usize;
    let record = &mut sheet[index * PORT_SIZE..][..PORT_SIZE];
    match random.below(13) {
        0 => put(record, 51, 13, random.within(1, (1 << 13) - 1)),
        1 => put(record, 0, 17, random.pick(&[100_001, (1 << 17) - 1])),
        2 => put(record, 17, 20, random.pick(&[1_000_001, (1 << 20) - 1])),
        3 => put(record, 37, 14, random.pick(&[0, 63, 9_601, 16_383])),
        4 => put(record, 37, 14, random.pick(&[1_522, 1_523, 4_000, 4_001, 9_600])),
        5 => flip(record, random),
        6 => sheet.truncate(index * PORT_SIZE),
        7 => sheet.extend_from_within(index * PORT_SIZE..(index + 1) * PORT_SIZE),
        8 => sheet.truncate(index * PORT_SIZE + random.within(1, 7) as usize),
        9 => {
            let more = random.within(1, 40) as usize;
            sheet.extend(random.octets(more));
        }
        10 => sheet.clear(),
        11 => {
            *sheet = sheet.repeat(random.within(2, 8_191 / sheet.len() as u64 * 8) as usize);
            sheet.truncate(usize::from(u16::MAX));
            flip(sheet, random);
        }
        _ => {
            flip(sheet, random);
            flip(sheet, random);
        }
    }
}

/// A filling at or behind an edge of the limits.
pub fn filling(random: &mut Random) -> Filling {
    if random.chance(50) {
        let count = random.pick(&[0, 1, 2, 3, 31, 32, 33, 40, 300]);
        let mut codes: Vec<u8> = (0..count).map(|_| random.pick(&[1, 2, 3])).collect();
        if let (Some(code), true) = (codes.last_mut(), random.chance(60)) {
            *code = random.pick(&[0, 4, 255]);
        }
        Filling::Ethernet(codes)
    } else {
        Filling::Cells {
            ports: random.pick(&[0, 1, 2, 32, 33, 255]),
            size: random.pick(&[0, 63, 64, 65, 1_024, 1_025, u16::MAX]),
            time: random.pick(&[0, 1, 2, 100_000, 100_001, u32::MAX]),
        }
    }
}

/// Damages a list of calls; what comes of it may be another list of calls.
pub fn list(mut list: Vec<u8>, random: &mut Random) -> Vec<u8> {
    let at = random.below(list.len() as u64 + 1) as usize;
    match random.below(6) {
        0 | 1 => list.truncate(at),
        2 => list.insert(at, random.pick(&[0, 7, 255])),
        3 => list.push(random.pick(&[0, 1, 2, 3, 4, 6, 7, 255])),
        4 => flip(&mut list, random),
        _ => {
            let count = random.below(12) as usize;
            list = random.octets(count).iter().map(|octet| octet % 8).collect();
        }
    }
    list
}
