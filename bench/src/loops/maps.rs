//! Loops over maps of numbers.

/// Loops over any map. `$remove` keeps the order, `$last` returns the last pair, and `$from` takes a vector.
macro_rules! map_loops {
    ($map:ident, $remove:ident, $last:expr, $from:expr) => {
        pub fn filled(keys: &[u64]) -> $map<u64, u64> {
            let mut map = $map::with_capacity(keys.len());
            for key in keys {
                map.insert(*key, key.wrapping_mul(3));
            }
            map
        }

        pub fn pairs(keys: &[u64]) -> Vec<(u64, u64)> {
            let mut pairs = Vec::with_capacity(keys.len());
            for key in keys {
                pairs.push((*key, key.wrapping_mul(3)));
            }
            pairs
        }

        pub fn mark(map: &$map<u64, u64>) -> u64 {
            match $last(map) {
                Some((key, value)) => (*key ^ *value).wrapping_add(map.len() as u64),
                None => 0,
            }
        }

        #[inline(never)]
        pub fn get_char(keys: &[u64], probes: &[u64], rounds: u64) -> u64 {
            let mut map: $map<char, u32> = $map::with_capacity(keys.len());
            for key in keys {
                map.insert(letter(*key), half(*key));
            }
            let wanted: Vec<char> = probes.iter().map(|probe| letter(*probe)).collect();
            rounds!(rounds, &wanted, |sum, round, probe| {
                if let Some(value) = map.get(probe) {
                    sum = sum.wrapping_add(u64::from(*value) ^ round);
                }
            })
        }

        #[inline(never)]
        pub fn get(keys: &[u64], probes: &[u64], rounds: u64) -> u64 {
            let map = filled(keys);
            rounds!(rounds, probes, |sum, round, probe| {
                if let Some(value) = map.get(probe) {
                    sum = sum.wrapping_add(*value ^ round);
                }
            })
        }

        #[inline(never)]
        pub fn get_mut(keys: &[u64], probes: &[u64], rounds: u64) -> u64 {
            let mut map = filled(keys);
            rounds!(rounds, probes, |sum, round, probe| {
                if let Some(value) = map.get_mut(probe) {
                    sum = sum.wrapping_add(*value);
                    *value = *value ^ round;
                }
            })
        }

        #[inline(never)]
        pub fn contains_key(keys: &[u64], probes: &[u64], rounds: u64) -> u64 {
            let map = filled(keys);
            rounds!(rounds, probes, |sum, round, probe| {
                if map.contains_key(probe) {
                    sum = sum.wrapping_add(*probe ^ round);
                }
            })
        }

        #[inline(never)]
        pub fn insert(keys: &[u64], _: &[u64], rounds: u64) -> u64 {
            rounds!(rounds, |sum, round| {
                let mut map = $map::new();
                for key in keys {
                    map.insert(*key, *key ^ round);
                }
                sum = sum.wrapping_add(mark(&map));
            })
        }

        #[inline(never)]
        pub fn insert_reserved(keys: &[u64], _: &[u64], rounds: u64) -> u64 {
            rounds!(rounds, |sum, round| {
                let mut map = $map::with_capacity(keys.len());
                for key in keys {
                    map.insert(*key, *key ^ round);
                }
                sum = sum.wrapping_add(mark(&map));
            })
        }

        #[inline(never)]
        pub fn insert_present(keys: &[u64], probes: &[u64], rounds: u64) -> u64 {
            let mut map = filled(keys);
            rounds!(rounds, probes, |sum, round, probe| {
                if let Some(old) = map.insert(*probe, *probe ^ round) {
                    sum = sum.wrapping_add(old);
                }
            })
        }

        #[inline(never)]
        pub fn remove(keys: &[u64], probes: &[u64], rounds: u64) -> u64 {
            let mut map = filled(keys);
            rounds!(rounds, probes, |sum, round, probe| {
                if let Some(value) = map.$remove(probe) {
                    sum = sum.wrapping_add(value);
                    map.insert(*probe, value ^ round);
                }
            })
        }

        #[inline(never)]
        pub fn entry_present(keys: &[u64], probes: &[u64], rounds: u64) -> u64 {
            let mut map = filled(keys);
            rounds!(rounds, probes, |sum, round, probe| {
                let value = map.entry(*probe).or_insert(round);
                sum = sum.wrapping_add(*value);
                *value = *value ^ round;
            })
        }

        #[inline(never)]
        pub fn entry_absent(keys: &[u64], _: &[u64], rounds: u64) -> u64 {
            rounds!(rounds, |sum, round| {
                let mut map = $map::with_capacity(keys.len());
                for key in keys {
                    let value = map.entry(*key).or_insert(round);
                    *value = *value ^ *key;
                }
                sum = sum.wrapping_add(mark(&map));
            })
        }

        #[inline(never)]
        pub fn from_vec(keys: &[u64], _: &[u64], rounds: u64) -> u64 {
            rounds!(rounds, |sum, round| {
                let map = $from(pairs(keys));
                sum = sum.wrapping_add(mark(&map) ^ round);
            })
        }

        #[inline(never)]
        pub fn from_iter(keys: &[u64], _: &[u64], rounds: u64) -> u64 {
            rounds!(rounds, |sum, round| {
                let map = $map::from_iter(pairs(keys).into_iter());
                sum = sum.wrapping_add(mark(&map) ^ round);
            })
        }

        #[inline(never)]
        pub fn extend(keys: &[u64], probes: &[u64], rounds: u64) -> u64 {
            let full = filled(keys);
            rounds!(rounds, |sum, round| {
                let mut map = full.clone();
                map.extend(pairs(probes).into_iter());
                sum = sum.wrapping_add(mark(&map) ^ round);
            })
        }

        #[inline(never)]
        pub fn clone(keys: &[u64], _: &[u64], rounds: u64) -> u64 {
            let full = filled(keys);
            rounds!(rounds, |sum, round| {
                let map = full.clone();
                sum = sum.wrapping_add(mark(&map) ^ round);
            })
        }
    };
}

/// Loops over maps with indices. `$remove_index` keeps the order, and `$first` extracts the pair from its result.
macro_rules! placed_loops {
    ($map:ident, $remove_index:ident, $first:expr) => {
        #[inline(never)]
        pub fn place(keys: &[u64], probes: &[u64], rounds: u64) -> u64 {
            let map = filled(keys);
            rounds!(rounds, probes, |sum, round, probe| {
                if let Some(place) = map.get_index_of(probe) {
                    sum = sum.wrapping_add(place as u64 ^ round);
                }
            })
        }

        #[inline(never)]
        pub fn insert_full(keys: &[u64], _: &[u64], rounds: u64) -> u64 {
            rounds!(rounds, |sum, round| {
                let mut map = $map::with_capacity(keys.len());
                for key in keys {
                    let (place, _old) = map.insert_full(*key, *key ^ round);
                    sum = sum.wrapping_add(place as u64);
                }
                sum = sum.wrapping_add(mark(&map));
            })
        }

        #[inline(never)]
        pub fn insert_full_present(keys: &[u64], probes: &[u64], rounds: u64) -> u64 {
            let mut map = filled(keys);
            rounds!(rounds, probes, |sum, round, probe| {
                if let (place, Some(old)) = map.insert_full(*probe, *probe ^ round) {
                    sum = sum.wrapping_add(old ^ place as u64);
                }
            })
        }

        #[inline(never)]
        pub fn swap_remove(keys: &[u64], probes: &[u64], rounds: u64) -> u64 {
            let mut map = filled(keys);
            rounds!(rounds, probes, |sum, round, probe| {
                if let Some(value) = map.swap_remove(probe) {
                    sum = sum.wrapping_add(value);
                    map.insert(*probe, value ^ round);
                }
            })
        }

        #[inline(never)]
        pub fn remove_front(keys: &[u64], _: &[u64], rounds: u64) -> u64 {
            let full = filled(keys);
            rounds!(rounds, |sum, round| {
                let mut map = full.clone();
                for _ in keys {
                    if !map.is_empty() {
                        let (key, value) = $first(map.$remove_index(0));
                        sum = sum.wrapping_mul(31).wrapping_add(key ^ value ^ round);
                    }
                }
            })
        }

        #[inline(never)]
        pub fn remove_middle(keys: &[u64], _: &[u64], rounds: u64) -> u64 {
            let full = filled(keys);
            rounds!(rounds, |sum, round| {
                let mut map = full.clone();
                for _ in keys {
                    let middle = map.len() / 2;
                    if middle < map.len() {
                        let (key, value) = $first(map.$remove_index(middle));
                        sum = sum.wrapping_mul(31).wrapping_add(key ^ value ^ round);
                    }
                }
            })
        }

        #[inline(never)]
        pub fn count_words(_: &[u64], words: &[u64], rounds: u64) -> u64 {
            rounds!(rounds, |sum, round| {
                let mut map = $map::new();
                for word in words {
                    map.entry(*word)
                        .and_modify(|n: &mut u64| *n = n.wrapping_add(1))
                        .or_insert(round);
                }
                sum = sum.wrapping_add(mark(&map));
            })
        }
    };
}
