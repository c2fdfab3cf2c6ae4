//! The inputs of the rows. Keys are random numbers, and probes are in a shuffled order.

/// splitmix64
struct Random(u64);

impl Random {
    fn next(&mut self) -> u64 {
        self.0 = self.0.wrapping_add(0x9e3779b97f4a7c15);
        let mut z = self.0;
        z = (z ^ (z >> 30)).wrapping_mul(0xbf58476d1ce4e5b9);
        z = (z ^ (z >> 27)).wrapping_mul(0x94d049bb133111eb);
        z ^ (z >> 31)
    }

    fn below(&mut self, n: usize) -> usize {
        (self.next() % n as u64) as usize
    }

    fn shuffled(&mut self, xs: &[u64]) -> Vec<u64> {
        let mut xs = xs.to_vec();
        for i in (1..xs.len()).rev() {
            xs.swap(i, self.below(i + 1));
        }
        xs
    }
}

/// Returns the character that the first 19 bits of a number name, or `a` if they name none.
pub fn letter(number: u64) -> char {
    char::from_u32((number >> 45) as u32).unwrap_or('a')
}

/// Returns whether a number is chosen in this round: about half are, and no branch predictor sees which.
pub fn is_chosen(number: u64, round: u64) -> bool {
    (number ^ round).wrapping_mul(0x9e37_79b9_7f4a_7c15) >> 63 == 1
}

/// Returns the first 32 bits of a number.
pub fn half(number: u64) -> u32 {
    (number >> 32) as u32
}

/// Keys, and the numbers that are looked up, inserted or removed.
pub struct Numbers {
    /// Distinct even numbers.
    pub keys: Vec<u64>,
    /// The keys in another order.
    pub hits: Vec<u64>,
    /// Eight orders of the keys, so that a removal is not always at the first index.
    pub orders: Vec<u64>,
    /// As many odd numbers, none of them a key.
    pub misses: Vec<u64>,
    /// At each index, either the hit or the miss at that index.
    pub mixed: Vec<u64>,
    /// Half of the hits and as many misses, shuffled.
    pub half: Vec<u64>,
    /// As many numbers as keys, with each key about four times.
    pub repeats: Vec<u64>,
    /// Four times as many keys, the first ones more often.
    pub words: Vec<u64>,
    /// The keys, with the one in the middle moved to the end.
    pub moved: Vec<u64>,
    /// The numbers below the size.
    pub places: Vec<u64>,
    /// The same in another order.
    pub shuffled_places: Vec<u64>,
    /// 1000 commands. Each has a key below the size, and in its low byte the kind of the command.
    pub commands: Vec<u64>,
}

impl Numbers {
    pub fn of(n: usize) -> Numbers {
        let mut random = Random(7);
        let keys: Vec<u64> = (0..n).map(|_| random.next() << 1).collect();
        let hits = random.shuffled(&keys);
        let orders = (0..8).flat_map(|_| random.shuffled(&keys)).collect();
        let misses: Vec<u64> = (0..n).map(|_| random.next() | 1).collect();
        let mut mixed = Vec::new();
        for (hit, miss) in hits.iter().zip(&misses) {
            mixed.push(if random.next() & 1 == 0 { *hit } else { *miss });
        }
        let half = [&hits[..n / 2], &misses[..n - n / 2]].concat();
        let half = random.shuffled(&half);
        let repeats = (0..n)
            .map(|i| keys[random.below(n.div_ceil(4)).min(i)])
            .collect();
        let words = (0..4 * n)
            .map(|_| keys[random.below(n).min(random.below(n))])
            .collect();
        let commands = (0..1000)
            .map(|_| (random.below(n) as u64) << 8 | random.below(100) as u64)
            .collect();
        let mut moved = keys.clone();
        let middle = moved.remove(n / 2);
        moved.push(middle);
        let places: Vec<u64> = (0..n as u64).collect();
        let shuffled_places = random.shuffled(&places);
        Numbers {
            keys,
            hits,
            orders,
            misses,
            mixed,
            half,
            repeats,
            words,
            moved,
            places,
            shuffled_places,
            commands,
        }
    }
}

/// The same inputs as lines of text.
pub struct Texts {
    pub keys: Vec<u8>,
    pub hits: Vec<u8>,
    pub orders: Vec<u8>,
    pub misses: Vec<u8>,
    pub words: Vec<u8>,
    /// Keys of 6 bytes.
    pub short_keys: Vec<u8>,
    pub short_hits: Vec<u8>,
    /// Keys of 188 bytes, of which the first 168 are equal.
    pub long_keys: Vec<u8>,
    pub long_hits: Vec<u8>,
    /// A section and a name in each line, with eight names to a section.
    pub names: Vec<u8>,
    /// The same in another order, and in capital letters.
    pub other_names: Vec<u8>,
    /// Half of them and as many others.
    pub half_names: Vec<u8>,
}

fn lines(xs: &[u64], line: impl Fn(u64) -> String) -> Vec<u8> {
    let lines: String = xs.iter().map(|x| line(*x) + "\n").collect();
    lines.into_bytes()
}

impl Texts {
    pub fn of(numbers: &Numbers) -> Texts {
        let sections = numbers.keys.len().div_ceil(8) as u64;
        let short = |x| format!("key-{:09}", x % 1_000_000_007);
        let six = |x| format!("{:06x}", x >> 40);
        let long = |x| format!("{}{:020}", "a/long/common/prefix/".repeat(8), x);
        let name = move |x| format!("section-{} name-{:09}", x / 8 % sections, x % 1_000_000_007);
        Texts {
            keys: lines(&numbers.keys, short),
            hits: lines(&numbers.hits, short),
            orders: lines(&numbers.orders, short),
            misses: lines(&numbers.misses, short),
            words: lines(&numbers.words, short),
            short_keys: lines(&numbers.keys, six),
            short_hits: lines(&numbers.hits, six),
            long_keys: lines(&numbers.keys, long),
            long_hits: lines(&numbers.hits, long),
            names: lines(&numbers.keys, name),
            other_names: lines(&numbers.hits, |x| name(x).to_uppercase()),
            half_names: lines(&numbers.half, name),
        }
    }
}
