//! The loops, once for each map and set that they run over. Statement by statement, they are the same as the loops in
//! Rattle in `bench/rattle`.

/// Returns the checksum of all rounds, to which the body of a round adds. With items, the body is executed for each of
/// them.
macro_rules! rounds {
    ($rounds:ident, |$sum:ident, $round:ident| $body:block) => {{
        let mut $sum = 0u64;
        for $round in 0..$rounds $body
        $sum
    }};
    ($rounds:ident, $items:expr, |$sum:ident, $round:ident, $item:pat_param| $body:block) => {
        rounds!($rounds, |$sum, $round| {
            for $item in $items $body
        })
    };
}

#[macro_use]
mod equality;
#[macro_use]
mod large;
#[macro_use]
mod maps;
#[macro_use]
mod own_keys;
#[macro_use]
mod sets;
#[macro_use]
mod texts;
