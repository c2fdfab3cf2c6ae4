//! Loops over sets of numbers.

/// Loops over any set.
macro_rules! set_loops {
    ($set:ident, $from:expr) => {
        pub fn set_filled(items: &[u64]) -> $set<u64> {
            let mut set = $set::with_capacity(items.len());
            for item in items {
                set.insert(*item);
            }
            set
        }

        #[inline(never)]
        pub fn set_insert(items: &[u64], _: &[u64], rounds: u64) -> u64 {
            rounds!(rounds, |sum, round| {
                let mut set = $set::new();
                for item in items {
                    if set.insert(*item ^ round) {
                        sum = sum.wrapping_add(1);
                    }
                }
            })
        }

        #[inline(never)]
        pub fn set_contains(items: &[u64], probes: &[u64], rounds: u64) -> u64 {
            let set = set_filled(items);
            rounds!(rounds, probes, |sum, round, probe| {
                if set.contains(probe) {
                    sum = sum.wrapping_add(*probe ^ round);
                }
            })
        }

        #[inline(never)]
        pub fn set_contains_u32(items: &[u64], probes: &[u64], rounds: u64) -> u64 {
            let mut set: $set<u32> = $set::with_capacity(items.len());
            for item in items {
                set.insert(half(*item));
            }
            let wanted: Vec<u32> = probes.iter().map(|probe| half(*probe)).collect();
            rounds!(rounds, &wanted, |sum, round, probe| {
                if set.contains(probe) {
                    sum = sum.wrapping_add(u64::from(*probe) ^ round);
                }
            })
        }

        #[inline(never)]
        pub fn set_from_vec(items: &[u64], _: &[u64], rounds: u64) -> u64 {
            rounds!(rounds, |sum, round| {
                let mut vec = Vec::with_capacity(items.len());
                for item in items {
                    vec.push(*item);
                }
                let set = $from(vec);
                sum = sum.wrapping_add(set.len() as u64 ^ round);
            })
        }
    };
}

/// Loops over sets with indices.
macro_rules! placed_set_loops {
    ($set:ident) => {
        fn turn(set: &mut $set<u64>) {
            if set.len() > 1 {
                set.swap_indices(0, 1);
            }
        }

        #[inline(never)]
        pub fn set_subset(items: &[u64], others: &[u64], rounds: u64) -> u64 {
            let mut set = set_filled(items);
            let other = set_filled(others);
            rounds!(rounds, |sum, round| {
                turn(&mut set);
                if set.is_subset(&other) {
                    sum = sum.wrapping_add(round);
                }
            })
        }

        #[inline(never)]
        pub fn set_disjoint(items: &[u64], others: &[u64], rounds: u64) -> u64 {
            let mut set = set_filled(items);
            let other = set_filled(others);
            rounds!(rounds, |sum, round| {
                turn(&mut set);
                if set.is_disjoint(&other) {
                    sum = sum.wrapping_add(round);
                }
            })
        }

        #[inline(never)]
        pub fn set_eq(items: &[u64], others: &[u64], rounds: u64) -> u64 {
            let mut set = set_filled(items);
            let other = set_filled(others);
            rounds!(rounds, |sum, round| {
                turn(&mut set);
                if set == other {
                    sum = sum.wrapping_add(round);
                }
            })
        }

        #[inline(never)]
        pub fn set_eq_both(items: &[u64], others: &[u64], rounds: u64) -> u64 {
            let mut set = set_filled(items);
            let mut other = set_filled(others);
            rounds!(rounds, |sum, round| {
                turn(&mut set);
                turn(&mut other);
                if set == other {
                    sum = sum.wrapping_add(round);
                }
            })
        }
    };
}
