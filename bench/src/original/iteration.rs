//! Iterators over maps, from both ends.
use super::{filled, mark};

#[inline(never)]
pub fn iter(keys: &[u64], _: &[u64], rounds: u64) -> u64 {
    let map = filled(keys);
    rounds!(rounds, map.iter(), |sum, round, (key, value)| {
        sum = sum.wrapping_add(*key ^ *value ^ round);
    })
}

#[inline(never)]
pub fn iter_back(keys: &[u64], _: &[u64], rounds: u64) -> u64 {
    let map = filled(keys);
    rounds!(rounds, map.iter().rev(), |sum, round, (key, value)| {
        sum = sum.wrapping_add(*key ^ *value ^ round);
    })
}

// Half of the calls are of `next`, and half of `next_back`.
#[inline(never)]
pub fn iter_both(keys: &[u64], _: &[u64], rounds: u64) -> u64 {
    let map = filled(keys);
    rounds!(rounds, |sum, round| {
        let mut pairs = map.iter();
        for _ in 0..keys.len() / 2 {
            if let Some((key, value)) = pairs.next() {
                sum = sum.wrapping_add(*key ^ *value ^ round);
            }
            if let Some((key, value)) = pairs.next_back() {
                sum = sum.wrapping_mul(3).wrapping_add(*key ^ *value);
            }
        }
    })
}

#[inline(never)]
pub fn keys(keys: &[u64], _: &[u64], rounds: u64) -> u64 {
    let map = filled(keys);
    rounds!(rounds, map.keys(), |sum, round, key| {
        sum = sum.wrapping_add(*key ^ round);
    })
}

#[inline(never)]
pub fn values(keys: &[u64], _: &[u64], rounds: u64) -> u64 {
    let map = filled(keys);
    rounds!(rounds, map.values(), |sum, round, value| {
        sum = sum.wrapping_add(*value ^ round);
    })
}

#[inline(never)]
pub fn iter_mut(keys: &[u64], _: &[u64], rounds: u64) -> u64 {
    let mut map = filled(keys);
    rounds!(rounds, |sum, round| {
        for (key, value) in map.iter_mut() {
            *value = *value ^ *key ^ round;
        }
        sum = sum.wrapping_add(mark(&map));
    })
}

#[inline(never)]
pub fn values_mut(keys: &[u64], _: &[u64], rounds: u64) -> u64 {
    let mut map = filled(keys);
    rounds!(rounds, |sum, round| {
        for value in map.values_mut() {
            *value = *value ^ round;
        }
        sum = sum.wrapping_add(mark(&map));
    })
}

#[inline(never)]
pub fn into_iter(keys: &[u64], _: &[u64], rounds: u64) -> u64 {
    let full = filled(keys);
    rounds!(rounds, full.clone(), |sum, round, (key, value)| {
        sum = sum.wrapping_add(key ^ value ^ round);
    })
}
