//! Loops over maps whose keys are texts.

/// Loops over any map.
macro_rules! text_loops {
    ($map:ident) => {
        fn numbered(text: &str) -> $map<String, u64> {
            let mut map = $map::new();
            let mut number = 0u64;
            for line in text.lines() {
                map.insert(String::from(line), number);
                number = number.wrapping_add(1);
            }
            map
        }

        fn lines(text: &str) -> Vec<String> {
            let mut lines = Vec::new();
            for line in text.lines() {
                lines.push(String::from(line));
            }
            lines
        }

        #[inline(never)]
        pub fn text_get(keys: &[u8], probes: &[u8], rounds: u64) -> u64 {
            let (Ok(keys), Ok(probes)) = (str::from_utf8(keys), str::from_utf8(probes)) else {
                return u64::MAX;
            };
            let map = numbered(keys);
            let probes = lines(probes);
            rounds!(rounds, probes.iter(), |sum, round, probe| {
                if let Some(value) = map.get(probe.as_str()) {
                    sum = sum.wrapping_add(*value ^ round);
                }
            })
        }

        #[inline(never)]
        pub fn string_get(keys: &[u8], probes: &[u8], rounds: u64) -> u64 {
            let (Ok(keys), Ok(probes)) = (str::from_utf8(keys), str::from_utf8(probes)) else {
                return u64::MAX;
            };
            let map = numbered(keys);
            let probes = lines(probes);
            rounds!(rounds, probes.iter(), |sum, round, probe| {
                if let Some(value) = map.get(probe) {
                    sum = sum.wrapping_add(*value ^ round);
                }
            })
        }

        #[inline(never)]
        pub fn string_insert(keys: &[u8], _: &[u8], rounds: u64) -> u64 {
            let Ok(keys) = str::from_utf8(keys) else {
                return u64::MAX;
            };
            rounds!(rounds, |sum, round| {
                let map = numbered(keys);
                sum = sum.wrapping_add(map.len() as u64 ^ round);
            })
        }
    };
}

/// Loops over maps with indices.
macro_rules! placed_text_loops {
    ($map:ident) => {
        #[inline(never)]
        pub fn count_lines(_: &[u8], text: &[u8], rounds: u64) -> u64 {
            let Ok(text) = str::from_utf8(text) else {
                return u64::MAX;
            };
            rounds!(rounds, |sum, round| {
                let mut map = $map::new();
                for line in text.lines() {
                    map.entry(line)
                        .and_modify(|n: &mut u64| *n = n.wrapping_add(1))
                        .or_insert(round);
                }
                if let Some((_line, n)) = map.last() {
                    sum = sum.wrapping_add(*n);
                }
                sum = sum.wrapping_add(map.len() as u64);
            })
        }
    };
}

/// Loops over maps whose removals keep the order.
macro_rules! removed_text_loops {
    ($map:ident) => {
        #[inline(never)]
        pub fn string_remove(keys: &[u8], probes: &[u8], rounds: u64) -> u64 {
            let (Ok(keys), Ok(probes)) = (str::from_utf8(keys), str::from_utf8(probes)) else {
                return u64::MAX;
            };
            let mut map = numbered(keys);
            let probes = lines(probes);
            rounds!(rounds, probes.iter(), |sum, round, probe| {
                if let Some((key, value)) = map.remove_entry(probe.as_str()) {
                    sum = sum.wrapping_add(value);
                    map.insert(key, value ^ round);
                }
            })
        }
    };
}
