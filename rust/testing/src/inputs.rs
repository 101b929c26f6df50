//! Random inputs of simulation: a set, a map and a schedule, accepted or damaged.

use crate::{damage, maps, schedules, sets, Random};
use reference::records::{map_bytes, set_bytes};

#[derive(Clone, Debug)]
pub struct Input {
    pub set: Vec<u8>,
    pub map: Vec<u8>,
    pub schedule: Vec<u8>,
}

impl Input {
    pub fn random(random: &mut Random) -> Input {
        let (set, map) = set_and_map(random);
        let schedule = schedules::schedule(random, &set, &map);
        Input { set, map, schedule }
    }
}

/// The records of a set and of a map.
pub fn set_and_map(random: &mut Random) -> (Vec<u8>, Vec<u8>) {
    let mut threads = sets::threads(random);
    if random.chance(4) {
        sets::break_rule(random, &mut threads);
    }
    let mut set = set_bytes(&threads);
    if random.chance(4) {
        damage::bytes(random, &mut set);
    }
    let mut map = map_bytes(&maps::cells(random));
    if random.chance(3) {
        damage::bytes(random, &mut map);
    }
    (set, map)
}
