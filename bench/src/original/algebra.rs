//! Sets that are computed from two sets, by iterators and by operators.
use super::{set_filled as filled, set_mark as mark};

#[inline(never)]
pub fn set_difference(keys: &[u64], probes: &[u64], rounds: u64) -> u64 {
    let set = filled(keys);
    let other = filled(probes);
    rounds!(rounds, set.difference(&other), |sum, round, item| {
        sum = sum.wrapping_add(*item ^ round);
    })
}

#[inline(never)]
pub fn set_intersection(keys: &[u64], probes: &[u64], rounds: u64) -> u64 {
    let set = filled(keys);
    let other = filled(probes);
    rounds!(rounds, set.intersection(&other), |sum, round, item| {
        sum = sum.wrapping_add(*item ^ round);
    })
}

#[inline(never)]
pub fn set_union(keys: &[u64], probes: &[u64], rounds: u64) -> u64 {
    let set = filled(keys);
    let other = filled(probes);
    rounds!(rounds, set.union(&other), |sum, round, item| {
        sum = sum.wrapping_add(*item ^ round);
    })
}

#[inline(never)]
pub fn set_symmetric_difference(keys: &[u64], probes: &[u64], rounds: u64) -> u64 {
    let set = filled(keys);
    let other = filled(probes);
    rounds!(rounds, set.symmetric_difference(&other), |sum, round, item| {
        sum = sum.wrapping_add(*item ^ round);
    })
}

#[inline(never)]
pub fn set_difference_back(keys: &[u64], probes: &[u64], rounds: u64) -> u64 {
    let set = filled(keys);
    let other = filled(probes);
    rounds!(rounds, set.difference(&other).rev(), |sum, round, item| {
        sum = sum.wrapping_add(*item ^ round);
    })
}

#[inline(never)]
pub fn set_and(keys: &[u64], probes: &[u64], rounds: u64) -> u64 {
    let set = filled(keys);
    let other = filled(probes);
    rounds!(rounds, |sum, round| {
        let made = &set & &other;
        sum = sum.wrapping_add(mark(&made) ^ round);
    })
}

#[inline(never)]
pub fn set_or(keys: &[u64], probes: &[u64], rounds: u64) -> u64 {
    let set = filled(keys);
    let other = filled(probes);
    rounds!(rounds, |sum, round| {
        let made = &set | &other;
        sum = sum.wrapping_add(mark(&made) ^ round);
    })
}

#[inline(never)]
pub fn set_sub(keys: &[u64], probes: &[u64], rounds: u64) -> u64 {
    let set = filled(keys);
    let other = filled(probes);
    rounds!(rounds, |sum, round| {
        let made = &set - &other;
        sum = sum.wrapping_add(mark(&made) ^ round);
    })
}

#[inline(never)]
pub fn set_xor(keys: &[u64], probes: &[u64], rounds: u64) -> u64 {
    let set = filled(keys);
    let other = filled(probes);
    rounds!(rounds, |sum, round| {
        let made = &set ^ &other;
        sum = sum.wrapping_add(mark(&made) ^ round);
    })
}
