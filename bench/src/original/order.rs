//! Sorts of clones, and searches of sorted maps.
use super::{filled, mark};

/// Returns the index that a search found, whether or not it has an equal item.
pub fn either(found: Result<usize, usize>) -> usize {
    match found {
        Ok(place) | Err(place) => place,
    }
}

#[inline(never)]
pub fn sort_keys(keys: &[u64], _: &[u64], rounds: u64) -> u64 {
    let full = filled(keys);
    rounds!(rounds, |sum, round| {
        let mut map = full.clone();
        map.sort_keys();
        sum = sum.wrapping_add(mark(&map) ^ round);
    })
}

#[inline(never)]
pub fn sort_by(keys: &[u64], _: &[u64], rounds: u64) -> u64 {
    let full = filled(keys);
    rounds!(rounds, |sum, round| {
        let mut map = full.clone();
        map.sort_by(|a, b| a.1.cmp(b.1));
        sum = sum.wrapping_add(mark(&map) ^ round);
    })
}

#[inline(never)]
pub fn sort_by_cached_key(keys: &[u64], _: &[u64], rounds: u64) -> u64 {
    let full = filled(keys);
    rounds!(rounds, |sum, round| {
        let mut map = full.clone();
        map.sort_by_cached_key(|key, value| *key ^ *value);
        sum = sum.wrapping_add(mark(&map) ^ round);
    })
}

#[inline(never)]
pub fn sort_unstable_keys(keys: &[u64], _: &[u64], rounds: u64) -> u64 {
    let full = filled(keys);
    rounds!(rounds, |sum, round| {
        let mut map = full.clone();
        map.sort_unstable_keys();
        sum = sum.wrapping_add(mark(&map) ^ round);
    })
}

#[inline(never)]
pub fn sort_unstable_by(keys: &[u64], _: &[u64], rounds: u64) -> u64 {
    let full = filled(keys);
    rounds!(rounds, |sum, round| {
        let mut map = full.clone();
        map.sort_unstable_by(|a, b| a.1.cmp(b.1));
        sum = sum.wrapping_add(mark(&map) ^ round);
    })
}

#[inline(never)]
pub fn binary_search_keys(keys: &[u64], probes: &[u64], rounds: u64) -> u64 {
    let mut map = filled(keys);
    map.sort_unstable_keys();
    rounds!(rounds, probes, |sum, round, probe| {
        let place = either(map.binary_search_keys(probe));
        sum = sum.wrapping_add(place as u64 ^ round);
    })
}

#[inline(never)]
pub fn binary_search_by(keys: &[u64], probes: &[u64], rounds: u64) -> u64 {
    let mut map = filled(keys);
    map.sort_unstable_keys();
    rounds!(rounds, probes, |sum, round, probe| {
        let place = either(map.binary_search_by(|key, _value| key.cmp(probe)));
        sum = sum.wrapping_add(place as u64 ^ round);
    })
}

#[inline(never)]
pub fn binary_search_by_key(keys: &[u64], probes: &[u64], rounds: u64) -> u64 {
    let mut map = filled(keys);
    map.sort_unstable_keys();
    rounds!(rounds, probes, |sum, round, probe| {
        let place = either(map.binary_search_by_key(probe, |key, _value| *key));
        sum = sum.wrapping_add(place as u64 ^ round);
    })
}

#[inline(never)]
pub fn partition_point(keys: &[u64], probes: &[u64], rounds: u64) -> u64 {
    let mut map = filled(keys);
    map.sort_unstable_keys();
    rounds!(rounds, probes, |sum, round, probe| {
        let place = map.partition_point(|key, _value| *key < *probe);
        sum = sum.wrapping_add(place as u64 ^ round);
    })
}
