//! Sets: iteration, removals, clones, parts, extensions, sorts and searches.
use super::order::either;
use super::{set_filled as filled, set_mark as mark};
use vecmap::VecSet;

#[inline(never)]
pub fn set_iter(keys: &[u64], _: &[u64], rounds: u64) -> u64 {
    let set = filled(keys);
    rounds!(rounds, set.iter(), |sum, round, item| {
        sum = sum.wrapping_add(*item ^ round);
    })
}

#[inline(never)]
pub fn set_remove(keys: &[u64], probes: &[u64], rounds: u64) -> u64 {
    let mut set = filled(keys);
    rounds!(rounds, probes, |sum, round, probe| {
        if set.remove(probe) {
            set.insert(*probe);
            sum = sum.wrapping_add(round);
        }
    })
}

#[inline(never)]
pub fn set_swap_take(keys: &[u64], probes: &[u64], rounds: u64) -> u64 {
    let mut set = filled(keys);
    rounds!(rounds, probes, |sum, round, probe| {
        if let Some(item) = set.swap_take(probe) {
            set.insert(item);
            sum = sum.wrapping_add(round);
        }
    })
}

// The original has no insertion of an element that is known to be new.
#[inline(never)]
pub fn set_insert_unique(keys: &[u64], _: &[u64], rounds: u64) -> u64 {
    rounds!(rounds, |sum, round| {
        let mut set = VecSet::new();
        for item in 0..keys.len() as u64 {
            set.insert(item);
        }
        sum = sum.wrapping_add(last_of(&set) ^ round);
    })
}

// Reads the set in a call.
#[inline(never)]
fn last_of(set: &VecSet<u64>) -> u64 {
    match set.last() {
        Some(item) => *item,
        None => 0,
    }
}

// The original has no call that moves an element. Its user removes it, and inserts it again.
#[inline(never)]
pub fn set_move_index(keys: &[u64], probes: &[u64], rounds: u64) -> u64 {
    let mut set = filled(keys);
    rounds!(rounds, probes, |sum, round, probe| {
        if !set.is_empty() {
            let item = set.remove_index(0);
            set.insert(item);
        }
        if let Some(item) = set.first() {
            sum = sum.wrapping_add(*item ^ *probe ^ round);
        }
    })
}

#[inline(never)]
pub fn set_clone(keys: &[u64], _: &[u64], rounds: u64) -> u64 {
    let full = filled(keys);
    rounds!(rounds, |sum, round| {
        let set = full.clone();
        sum = sum.wrapping_add(mark(&set) ^ round);
    })
}

// About half of the elements are kept.
#[inline(never)]
pub fn set_retain(keys: &[u64], _: &[u64], rounds: u64) -> u64 {
    let full = filled(keys);
    rounds!(rounds, |sum, round| {
        let mut set = full.clone();
        set.retain(|item| *item & 2 == 0);
        sum = sum.wrapping_add(mark(&set) ^ round);
    })
}

// All elements are kept.
#[inline(never)]
pub fn set_retain_all(keys: &[u64], _: &[u64], rounds: u64) -> u64 {
    let full = filled(keys);
    rounds!(rounds, |sum, round| {
        let mut set = full.clone();
        set.retain(|item| *item != round);
        sum = sum.wrapping_add(mark(&set) ^ round);
    })
}

// The front half is removed.
#[inline(never)]
pub fn set_drain(keys: &[u64], _: &[u64], rounds: u64) -> u64 {
    let full = filled(keys);
    rounds!(rounds, |sum, round| {
        let mut set = full.clone();
        let half = set.len() / 2;
        for item in set.drain(..half) {
            sum = sum.wrapping_add(item ^ round);
        }
        sum = sum.wrapping_add(mark(&set));
    })
}

#[inline(never)]
pub fn set_split_off(keys: &[u64], _: &[u64], rounds: u64) -> u64 {
    let full = filled(keys);
    rounds!(rounds, |sum, round| {
        let mut set = full.clone();
        let half = set.len() / 2;
        let part = set.split_off(half);
        sum = sum.wrapping_add(mark(&set) ^ mark(&part) ^ round);
    })
}

#[inline(never)]
pub fn set_extend(keys: &[u64], probes: &[u64], rounds: u64) -> u64 {
    let full = filled(keys);
    rounds!(rounds, |sum, round| {
        let mut set = full.clone();
        set.extend(probes);
        sum = sum.wrapping_add(mark(&set) ^ round);
    })
}

#[inline(never)]
pub fn set_append(keys: &[u64], probes: &[u64], rounds: u64) -> u64 {
    let full = filled(keys);
    let others = filled(probes);
    rounds!(rounds, |sum, round| {
        let mut set = full.clone();
        let mut other = others.clone();
        set.append(&mut other);
        sum = sum.wrapping_add(mark(&set) ^ round);
    })
}

#[inline(never)]
pub fn set_sort(keys: &[u64], _: &[u64], rounds: u64) -> u64 {
    let full = filled(keys);
    rounds!(rounds, |sum, round| {
        let mut set = full.clone();
        set.sort();
        sum = sum.wrapping_add(mark(&set) ^ round);
    })
}

#[inline(never)]
pub fn set_sort_unstable(keys: &[u64], _: &[u64], rounds: u64) -> u64 {
    let full = filled(keys);
    rounds!(rounds, |sum, round| {
        let mut set = full.clone();
        set.sort_unstable();
        sum = sum.wrapping_add(mark(&set) ^ round);
    })
}

#[inline(never)]
pub fn set_binary_search(keys: &[u64], probes: &[u64], rounds: u64) -> u64 {
    let mut set = filled(keys);
    set.sort_unstable();
    rounds!(rounds, probes, |sum, round, probe| {
        let place = either(set.binary_search(probe));
        sum = sum.wrapping_add(place as u64 ^ round);
    })
}
