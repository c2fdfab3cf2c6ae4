//! Calls that the peers do not have: insertions at an index, insertions of keys that are known to be new, insertions by a
//! query, moves to an index, a map that is appended to another or extends it, counted comparisons, and a macro.
use super::{filled, mark, pairs};
use vecmap::{VecMap, vecmap};

/// The original does not count, but for distinct keys the number of comparisons is known.
#[inline(never)]
pub fn from_vec_counted(keys: &[u64], _: &[u64], rounds: u64) -> u64 {
    rounds!(rounds, |sum, round| {
        let map = VecMap::from(pairs(keys));
        let n = keys.len() as u64;
        sum = sum
            .wrapping_add(mark(&map) ^ round)
            .wrapping_add(n * (n - 1) / 2);
    })
}

// Each key moves to the index that its number gives.
#[inline(never)]
pub fn insert_at_present(keys: &[u64], probes: &[u64], rounds: u64) -> u64 {
    let mut map = filled(keys);
    let mut sum = 0u64;
    if keys.is_empty() {
        return sum;
    }
    for round in 0..rounds {
        for probe in probes {
            let to = ((*probe ^ round) % keys.len() as u64) as usize;
            if to <= map.len() {
                if let Some((from, old)) = map.insert_at(to, *probe, *probe ^ round) {
                    sum = sum.wrapping_add(old ^ from as u64);
                }
            }
        }
    }
    sum
}

// Each key is new and is inserted in the middle.
#[inline(never)]
pub fn insert_at_absent(keys: &[u64], _: &[u64], rounds: u64) -> u64 {
    rounds!(rounds, |sum, round| {
        let mut map = VecMap::with_capacity(keys.len());
        for key in keys {
            let middle = map.len() / 2;
            map.insert_at(middle, *key, *key ^ round);
        }
        sum = sum.wrapping_add(mark(&map));
    })
}

// The original has no insertion by a query. Of numbers, `entry` is the same.
#[inline(never)]
pub fn index_or_insert(keys: &[u64], probes: &[u64], rounds: u64) -> u64 {
    let mut map = filled(keys);
    rounds!(rounds, probes, |sum, round, probe| {
        let value = map.entry(*probe).or_insert(round);
        sum = sum.wrapping_add(*value);
        *value ^= round;
    })
}

// The original has no call that moves a pair. Its user removes it, and inserts it again.
#[inline(never)]
pub fn move_index(keys: &[u64], probes: &[u64], rounds: u64) -> u64 {
    let mut map = filled(keys);
    rounds!(rounds, probes, |sum, round, probe| {
        if !map.is_empty() {
            let (key, value) = map.remove_index(0);
            map.insert_at(map.len(), key, value);
        }
        if let Some((key, _)) = map.first() {
            sum = sum.wrapping_add(*key ^ *probe ^ round);
        }
    })
}

#[inline(never)]
pub fn first_value_mut(keys: &[u64], probes: &[u64], rounds: u64) -> u64 {
    let mut map = filled(keys);
    rounds!(rounds, probes, |sum, round, probe| {
        if let Some((_, value)) = map.first_mut() {
            sum = sum.wrapping_add(*value);
            *value = *value ^ *probe ^ round;
        }
    })
}

#[inline(never)]
pub fn pair_mut(keys: &[u64], probes: &[u64], rounds: u64) -> u64 {
    let mut map = filled(keys);
    rounds!(rounds, probes, |sum, round, probe| {
        let index = ((*probe >> 32).wrapping_mul(keys.len() as u64) >> 32) as usize;
        if let Some((key, value)) = map.get_index_mut(index) {
            sum = sum.wrapping_add(*key ^ *value);
            *value = *value ^ round;
        }
    })
}

#[inline(never)]
pub fn from_iter_mapped(keys: &[u64], _: &[u64], rounds: u64) -> u64 {
    rounds!(rounds, |sum, round| {
        let map = VecMap::from_iter(keys.iter().map(|key| (*key, key.wrapping_mul(3))));
        sum = sum.wrapping_add(mark(&map) ^ round);
    })
}

#[inline(never)]
pub fn extend_refs(keys: &[u64], probes: &[u64], rounds: u64) -> u64 {
    let full = filled(keys);
    let others = filled(probes);
    rounds!(rounds, |sum, round| {
        let mut map = full.clone();
        map.extend(others.iter());
        sum = sum.wrapping_add(mark(&map) ^ round);
    })
}

// Other sizes than four have no such row.
#[inline(never)]
pub fn vecmap_of_4(keys: &[u64], _: &[u64], rounds: u64) -> u64 {
    let [a, b, c, d] = keys else {
        return u64::MAX;
    };
    rounds!(rounds, |sum, round| {
        let map = vecmap! { *a => round, *b => 2, *c => 3, *d => 4 };
        sum = sum.wrapping_add(mark(&map) ^ round);
    })
}

#[inline(never)]
pub fn append(keys: &[u64], probes: &[u64], rounds: u64) -> u64 {
    let full = filled(keys);
    let others = filled(probes);
    rounds!(rounds, |sum, round| {
        let mut map = full.clone();
        let mut other = others.clone();
        map.append(&mut other);
        sum = sum.wrapping_add(mark(&map) ^ round);
    })
}

// Reads the map in a call, so that the compiler cannot drop pairs that nothing reads.
#[inline(never)]
fn read(map: &VecMap<u64, u64>) -> u64 {
    mark(map)
}

// The original has no call for a key that is known to be new.
#[inline(never)]
pub fn insert_unique(keys: &[u64], _: &[u64], rounds: u64) -> u64 {
    rounds!(rounds, |sum, round| {
        let mut map = VecMap::new();
        for key in 0..keys.len() as u64 {
            map.insert(key, key ^ round);
        }
        sum = sum.wrapping_add(read(&map));
    })
}

#[inline(never)]
pub fn insert_unique_reserved(keys: &[u64], _: &[u64], rounds: u64) -> u64 {
    rounds!(rounds, |sum, round| {
        let mut map = VecMap::with_capacity(keys.len());
        for key in 0..keys.len() as u64 {
            map.insert(key, key ^ round);
        }
        sum = sum.wrapping_add(read(&map));
    })
}
