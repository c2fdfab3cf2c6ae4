//! Parts of maps: what a closure keeps, what a drain returns, what is split off.
use super::{filled, mark};
use crate::inputs::is_chosen;

// About half of the pairs are kept.
#[inline(never)]
pub fn retain(keys: &[u64], _: &[u64], rounds: u64) -> u64 {
    let full = filled(keys);
    rounds!(rounds, |sum, round| {
        let mut map = full.clone();
        map.retain(|key, _value| *key & 2 == 0);
        sum = sum.wrapping_add(mark(&map) ^ round);
    })
}

// All pairs are kept.
#[inline(never)]
pub fn retain_all(keys: &[u64], _: &[u64], rounds: u64) -> u64 {
    let full = filled(keys);
    rounds!(rounds, |sum, round| {
        let mut map = full.clone();
        map.retain(|key, _value| *key != round);
        sum = sum.wrapping_add(mark(&map) ^ round);
    })
}

// About half of the pairs are kept, others in each round.
#[inline(never)]
pub fn retain_others(keys: &[u64], _: &[u64], rounds: u64) -> u64 {
    let full = filled(keys);
    rounds!(rounds, |sum, round| {
        let mut map = full.clone();
        map.retain(|key, _value| is_chosen(*key, round));
        sum = sum.wrapping_add(mark(&map) ^ round);
    })
}

// The front half is removed.
#[inline(never)]
pub fn drain(keys: &[u64], _: &[u64], rounds: u64) -> u64 {
    let full = filled(keys);
    rounds!(rounds, |sum, round| {
        let mut map = full.clone();
        let half = map.len() / 2;
        for (key, value) in map.drain(..half) {
            sum = sum.wrapping_add(key ^ value ^ round);
        }
        sum = sum.wrapping_add(mark(&map));
    })
}

// Either half is removed.
#[inline(never)]
pub fn drain_either(keys: &[u64], _: &[u64], rounds: u64) -> u64 {
    let full = filled(keys);
    rounds!(rounds, |sum, round| {
        let mut map = full.clone();
        let half = map.len() / 2;
        let start = if is_chosen(0, round) { half } else { 0 };
        for (key, value) in map.drain(start..start + half) {
            sum = sum.wrapping_add(key ^ value ^ round);
        }
        sum = sum.wrapping_add(mark(&map));
    })
}

// All pairs are removed, from the back.
#[inline(never)]
pub fn drain_back(keys: &[u64], _: &[u64], rounds: u64) -> u64 {
    let full = filled(keys);
    rounds!(rounds, |sum, round| {
        let mut map = full.clone();
        for (key, value) in map.drain(..).rev() {
            sum = sum.wrapping_mul(3).wrapping_add(key ^ value ^ round);
        }
        sum = sum.wrapping_add(map.len() as u64);
    })
}

// All pairs are removed, one by one.
#[inline(never)]
pub fn pop(keys: &[u64], _: &[u64], rounds: u64) -> u64 {
    let full = filled(keys);
    rounds!(rounds, |sum, round| {
        let mut map = full.clone();
        for _ in keys {
            if let Some((key, value)) = map.pop() {
                sum = sum.wrapping_mul(3).wrapping_add(key ^ value ^ round);
            }
        }
    })
}

#[inline(never)]
pub fn split_off(keys: &[u64], _: &[u64], rounds: u64) -> u64 {
    let full = filled(keys);
    rounds!(rounds, |sum, round| {
        let mut map = full.clone();
        let half = map.len() / 2;
        let part = map.split_off(half);
        sum = sum.wrapping_add(mark(&map) ^ mark(&part) ^ round);
    })
}
