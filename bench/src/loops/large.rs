//! Loops over maps whose values have 128 bytes, and one over pairs of 64 bytes.

/// Loops over any map. `$remove` keeps the order, `$last` returns the last pair, and `$from` takes a vector.
macro_rules! large_loops {
    ($map:ident, $remove:ident, $last:expr, $from:expr) => {
        type Large = [u64; 16];

        fn large_filled(keys: &[u64]) -> $map<u64, Large> {
            let mut map = $map::with_capacity(keys.len());
            for key in keys {
                map.insert(*key, [*key; 16]);
            }
            map
        }

        fn large_mark(map: &$map<u64, Large>) -> u64 {
            match $last(map) {
                Some((key, value)) => (*key ^ value[15]).wrapping_add(map.len() as u64),
                None => 0,
            }
        }

        #[inline(never)]
        pub fn large_insert(keys: &[u64], _: &[u64], rounds: u64) -> u64 {
            rounds!(rounds, |sum, round| {
                let mut map = $map::new();
                for key in keys {
                    map.insert(*key, [*key ^ round; 16]);
                }
                sum = sum.wrapping_add(large_mark(&map));
            })
        }

        #[inline(never)]
        pub fn large_insert_present(keys: &[u64], probes: &[u64], rounds: u64) -> u64 {
            let mut map = large_filled(keys);
            rounds!(rounds, probes, |sum, round, probe| {
                if let Some(old) = map.insert(*probe, [*probe ^ round; 16]) {
                    sum = sum.wrapping_add(old[7]);
                }
            })
        }

        #[inline(never)]
        pub fn large_remove(keys: &[u64], probes: &[u64], rounds: u64) -> u64 {
            let mut map = large_filled(keys);
            rounds!(rounds, probes, |sum, round, probe| {
                if let Some(value) = map.$remove(probe) {
                    sum = sum.wrapping_add(value[3] ^ round);
                    map.insert(*probe, value);
                }
            })
        }

        // The pairs have 64 bytes.
        #[inline(never)]
        pub fn medium_remove(keys: &[u64], probes: &[u64], rounds: u64) -> u64 {
            let mut map: $map<u64, [u64; 7]> = $map::with_capacity(keys.len());
            for key in keys {
                map.insert(*key, [*key; 7]);
            }
            rounds!(rounds, probes, |sum, round, probe| {
                if let Some(value) = map.$remove(probe) {
                    sum = sum.wrapping_add(value[3] ^ round);
                    map.insert(*probe, value);
                }
            })
        }

        #[inline(never)]
        pub fn large_from_vec(keys: &[u64], _: &[u64], rounds: u64) -> u64 {
            rounds!(rounds, |sum, round| {
                let mut pairs = Vec::with_capacity(keys.len());
                for key in keys {
                    pairs.push((*key, [*key ^ round; 16]));
                }
                sum = sum.wrapping_add(large_mark(&$from(pairs)));
            })
        }

        #[inline(never)]
        pub fn large_entry(keys: &[u64], _: &[u64], rounds: u64) -> u64 {
            rounds!(rounds, |sum, round| {
                let mut map = $map::with_capacity(keys.len());
                for key in keys {
                    let value = map.entry(*key).or_insert([*key ^ round; 16]);
                    sum = sum.wrapping_add(value[0]);
                }
                sum = sum.wrapping_add(large_mark(&map));
            })
        }
    };
}

/// Loops over maps with indices.
macro_rules! placed_large_loops {
    ($map:ident) => {
        #[inline(never)]
        pub fn large_swap_remove(keys: &[u64], probes: &[u64], rounds: u64) -> u64 {
            let mut map = large_filled(keys);
            rounds!(rounds, probes, |sum, round, probe| {
                if let Some(value) = map.swap_remove(probe) {
                    sum = sum.wrapping_add(value[3] ^ round);
                    map.insert(*probe, value);
                }
            })
        }
    };
}
