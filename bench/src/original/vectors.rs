//! The same work on a plain vector of pairs, without a map: the least that a row with such work can take.
use super::pairs;

#[inline(never)]
pub fn vec_clone(keys: &[u64], _: &[u64], rounds: u64) -> u64 {
    let full = pairs(keys);
    rounds!(rounds, |sum, round| {
        let copy = full.clone();
        sum = sum.wrapping_add(last_key(&copy) ^ round);
    })
}

// The pairs are appended to an empty vector.
#[inline(never)]
pub fn vec_push(keys: &[u64], _: &[u64], rounds: u64) -> u64 {
    rounds!(rounds, |sum, round| {
        let mut list = Vec::new();
        for key in keys {
            list.push((*key, *key ^ round));
        }
        sum = sum.wrapping_add(last_key(&list) ^ round);
    })
}

// All pairs of a clone are removed, from the front.
#[inline(never)]
pub fn vec_remove(keys: &[u64], _: &[u64], rounds: u64) -> u64 {
    let full = pairs(keys);
    rounds!(rounds, |sum, round| {
        let mut list = full.clone();
        for _ in 0..keys.len() {
            if !list.is_empty() {
                let (key, value) = list.remove(0);
                sum = sum.wrapping_mul(3).wrapping_add(key ^ value ^ round);
            }
        }
    })
}

// The pairs are inserted at the front of an empty vector.
#[inline(never)]
pub fn vec_insert(keys: &[u64], _: &[u64], rounds: u64) -> u64 {
    rounds!(rounds, |sum, round| {
        let mut list = Vec::new();
        for key in keys {
            list.insert(0, (*key, *key ^ round));
        }
        sum = sum.wrapping_add(last_key(&list) ^ round);
    })
}

// Returns the key of the last pair, and 0 if there is none.
fn last_key(list: &[(u64, u64)]) -> u64 {
    match list.last() {
        Some(pair) => pair.0,
        None => 0,
    }
}
