//! Random maps: the few cells that random sets use, and maps of every size up to one too many.

use crate::Random;
use reference::records::MAX_GIVEN_MAP;
use reference::Cell;

pub fn cells(random: &mut Random) -> Vec<Cell> {
    match random.below(10) {
        0 => Vec::new(),
        1 => {
            let count = random.below(40);
            scattered(random, count)
        }
        2 => {
            let sizes = [127, 128, 129, 255, MAX_GIVEN_MAP, MAX_GIVEN_MAP + 1];
            let count = random.pick(&sizes);
            scattered(random, count)
        }
        3 => {
            let count = random.below(MAX_GIVEN_MAP + 1);
            scattered(random, count)
        }
        _ => dense(random),
    }
}

/// Nearly all addresses from 0 on, with values that are mostly such addresses again.
fn dense(random: &mut Random) -> Vec<Cell> {
    let lacking = random.pick(&[0, 0, 10]);
    let count = random.between(6, 32) as u16;
    (0..count)
        .filter(|_| !random.chance(lacking))
        .collect::<Vec<u16>>()
        .into_iter()
        .map(|address| Cell {
            address,
            value: value(random),
        })
        .collect()
}

/// Exactly this many cells, those from 0 on and others anywhere.
fn scattered(random: &mut Random, count: usize) -> Vec<Cell> {
    let first = random.below(count.min(16) + 1);
    let mut addresses: Vec<u16> = (0..first as u16).collect();
    while addresses.len() < count {
        let address = random.word();
        if !addresses.contains(&address) {
            addresses.push(address);
        }
    }
    addresses.sort_unstable();
    addresses
        .into_iter()
        .map(|address| Cell {
            address,
            value: value(random),
        })
        .collect()
}

fn value(random: &mut Random) -> u16 {
    match random.below(12) {
        0 => random.pick(&[255, 256, 32_767, 32_768, 65_535]),
        1 => random.word(),
        _ => random.below(6) as u16,
    }
}
