//! Loops that compare maps.

/// Loops that compare maps with indices. `$end` lends the pair at an index for writing.
macro_rules! equality_loops {
    ($end:expr) => {
        #[inline(never)]
        pub fn eq(keys: &[u64], _: &[u64], rounds: u64) -> u64 {
            let mut map = filled(keys);
            let mut other = filled(keys);
            rounds!(rounds, |sum, round| {
                if let Some((_key, value)) = $end(&mut map, keys.len().wrapping_sub(1)) {
                    *value = round;
                }
                if let Some((_key, value)) = $end(&mut other, keys.len().wrapping_sub(1)) {
                    *value = round;
                }
                if map == other {
                    sum = sum.wrapping_add(round);
                }
            })
        }

        #[inline(never)]
        pub fn eq_moved(keys: &[u64], probes: &[u64], rounds: u64) -> u64 {
            let mut map = filled(keys);
            let mut other = filled(probes);
            rounds!(rounds, |sum, round| {
                if let Some((_key, value)) = $end(&mut map, 0) {
                    *value = round;
                }
                if let Some((_key, value)) = $end(&mut other, 0) {
                    *value = round;
                }
                if map == other {
                    sum = sum.wrapping_add(round);
                }
            })
        }

        #[inline(never)]
        pub fn eq_reversed(keys: &[u64], _: &[u64], rounds: u64) -> u64 {
            let mut map = filled(keys);
            let mut other = filled(keys);
            other.reverse();
            rounds!(rounds, |sum, round| {
                if let Some((_key, value)) = $end(&mut map, keys.len().wrapping_sub(1)) {
                    *value = round;
                }
                if let Some((_key, value)) = $end(&mut other, 0) {
                    *value = round;
                }
                if map == other {
                    sum = sum.wrapping_add(round);
                }
            })
        }

        #[inline(never)]
        pub fn eq_not(keys: &[u64], _: &[u64], rounds: u64) -> u64 {
            let mut map = filled(keys);
            let mut other = filled(keys);
            rounds!(rounds, |sum, round| {
                if let Some((_key, value)) = $end(&mut map, keys.len().wrapping_sub(1)) {
                    *value = round;
                }
                if let Some((_key, value)) = $end(&mut other, keys.len().wrapping_sub(1)) {
                    *value = round ^ 1;
                }
                if map != other {
                    sum = sum.wrapping_add(round);
                }
            })
        }
    };
}
