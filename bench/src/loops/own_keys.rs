//! Loops over maps whose keys are structs and enums.

/// Loops over any map. `$remove` and `$remove_entry` keep the order.
macro_rules! own_key_loops {
    ($map:ident, $remove:ident) => {
        fn symbols(numbers: &[u64]) -> Vec<Symbol> {
            let mut symbols = Vec::with_capacity(numbers.len());
            for number in numbers {
                symbols.push(Symbol::of(*number));
            }
            symbols
        }

        fn symbol_filled(keys: &[Symbol]) -> $map<Symbol, u64> {
            let mut map = $map::new();
            for key in keys {
                map.insert(*key, u64::from(key.number));
            }
            map
        }

        #[inline(never)]
        pub fn symbol_insert(keys: &[u64], _: &[u64], rounds: u64) -> u64 {
            let keys = symbols(keys);
            rounds!(rounds, |sum, round| {
                let map = symbol_filled(&keys);
                sum = sum.wrapping_add(map.len() as u64 ^ round);
            })
        }

        #[inline(never)]
        pub fn symbol_get(keys: &[u64], probes: &[u64], rounds: u64) -> u64 {
            let map = symbol_filled(&symbols(keys));
            let probes = symbols(probes);
            rounds!(rounds, probes.iter(), |sum, round, probe| {
                if let Some(value) = map.get(probe) {
                    sum = sum.wrapping_add(*value ^ round);
                }
            })
        }

        #[inline(never)]
        pub fn symbol_remove(keys: &[u64], probes: &[u64], rounds: u64) -> u64 {
            let mut map = symbol_filled(&symbols(keys));
            let probes = symbols(probes);
            rounds!(rounds, probes.iter(), |sum, round, probe| {
                if let Some(value) = map.$remove(probe) {
                    sum = sum.wrapping_add(value);
                    map.insert(*probe, value ^ round);
                }
            })
        }

        fn months(numbers: &[u64]) -> Vec<Month> {
            let mut months = Vec::with_capacity(numbers.len());
            for number in numbers {
                months.push(Month::of(*number));
            }
            months
        }

        fn month_filled(keys: &[Month], value: u64) -> $map<Month, u64> {
            let mut map = $map::new();
            for key in keys {
                map.insert(*key, value);
            }
            map
        }

        #[inline(never)]
        pub fn month_insert(keys: &[u64], _: &[u64], rounds: u64) -> u64 {
            let keys = months(keys);
            rounds!(rounds, |sum, round| {
                let map = month_filled(&keys, round);
                sum = sum.wrapping_add(map.len() as u64 ^ round);
            })
        }

        #[inline(never)]
        pub fn month_get(keys: &[u64], probes: &[u64], rounds: u64) -> u64 {
            let map = month_filled(&months(keys), 3);
            let probes = months(probes);
            rounds!(rounds, probes.iter(), |sum, round, probe| {
                if let Some(value) = map.get(probe) {
                    sum = sum.wrapping_add(*value ^ round);
                }
            })
        }

        fn headers(text: &str) -> Vec<Header> {
            let mut headers = Vec::new();
            for line in text.lines() {
                headers.push(Header::of(line));
            }
            headers
        }

        fn header_numbered(text: &str) -> $map<Header, u64> {
            let mut map = $map::new();
            let mut number = 0u64;
            for line in text.lines() {
                map.insert(Header::of(line), number);
                number = number.wrapping_add(1);
            }
            map
        }

        #[inline(never)]
        pub fn header_insert(keys: &[u8], _: &[u8], rounds: u64) -> u64 {
            let Ok(keys) = str::from_utf8(keys) else {
                return u64::MAX;
            };
            rounds!(rounds, |sum, round| {
                let map = header_numbered(keys);
                sum = sum.wrapping_add(map.len() as u64 ^ round);
            })
        }

        #[inline(never)]
        pub fn header_get(keys: &[u8], probes: &[u8], rounds: u64) -> u64 {
            let (Ok(keys), Ok(probes)) = (str::from_utf8(keys), str::from_utf8(probes)) else {
                return u64::MAX;
            };
            let map = header_numbered(keys);
            let probes = headers(probes);
            rounds!(rounds, probes.iter(), |sum, round, probe| {
                if let Some(value) = map.get(probe) {
                    sum = sum.wrapping_add(*value ^ round);
                }
            })
        }
    };
}

/// Loops over maps that remove a pair. `$remove_entry` keeps the order.
macro_rules! own_key_removals {
    ($map:ident, $remove_entry:ident) => {
        #[inline(never)]
        pub fn header_remove(keys: &[u8], probes: &[u8], rounds: u64) -> u64 {
            let (Ok(keys), Ok(probes)) = (str::from_utf8(keys), str::from_utf8(probes)) else {
                return u64::MAX;
            };
            let mut map = header_numbered(keys);
            let probes = headers(probes);
            rounds!(rounds, probes.iter(), |sum, round, probe| {
                if let Some((key, value)) = map.$remove_entry(probe) {
                    sum = sum.wrapping_add(value);
                    map.insert(key, value ^ round);
                }
            })
        }
    };
}
