//! The rows: each loop that is timed or counted, with its input.
//!
//! - Lookups: as many probes as keys, all present (`hit`), none present (`miss`), or half of them. `get_mut` writes each
//!   value that it finds. `char keys` has characters as keys and values of 32 bits, and `u32` elements of 32 bits.
//! - Insertions: `insert new` starts with `new()`, `reserved` with `with_capacity`. `insert_at present` moves a key
//!   to a random index, `insert_at absent` inserts each new key in the middle. `count words` and `count lines` count
//!   by `entry`. `vecmap! of 4` creates a map of four pairs.
//! - Added calls, which the original lacks, in a table of their own. `insert_unique` requires that the key is absent, and
//!   compares nothing. The keys are the numbers from 0 on, as many as in the other rows, so each is known to be new. The
//!   original's side has `insert` of the same keys. `index_or_try_insert_with` finds each key, and `get_value_at_mut`
//!   writes its value; the original's side has `entry`. `move_index` moves the first pair to the back; the original's
//!   side has `remove_index` and `insert_at`, or `insert` of sets. Beside `first_value_mut` and `pair_mut` are `first_mut`
//!   and `get_index_mut`.
//! - Removals: `remove_index` and `pop` remove all pairs of a clone. `retain`, `drain` and `split_off` remove half of a
//!   clone. `retain all` removes nothing of it, and `drain all` removes all of it from the back. `retain others` and
//!   `drain either half` remove other pairs in each round, which no branch predictor knows.
//! - Clones: a row that changes a clone in each round names the row of that clone, whose time is subtracted from its own.
//!   `clone, by value` is an iteration of a clone, and includes it.
//! - Bulk: `From<Vec>` and `from_iter` take a vector of pairs that is created in the loop, with distinct keys or
//!   with about four pairs for each key. `mapped` is an iterator over a slice. `From<Vec> counted` compares
//!   `from_vec_counted` with the original's `From`. `extend`, `extend_refs` and `append` insert as many pairs as a clone
//!   has, half of them with existing keys, into that clone.
//! - Equality: before each comparison, one value of each map is written, so that the compiler cannot compare once for all
//!   rounds. Of sets, the first two elements of one set are swapped, and in `same order` and `one moved` those of both. In
//!   `one moved`, what is in the middle of one side is at the end of the other.
//! - Iteration: a checksum of all pairs, from the front, the back, or both ends alternately.
//! - Orders: sorts of a clone that is in random order, and searches of a sorted map.
//! - Sets: the same rows, and set operations on two sets of which one has half of the other's elements, as lazy
//!   iterators and as new sets.
//! - Large: values of 128 bytes; `64-byte remove+insert` has pairs of 64 bytes.
//! - Texts: keys of 13 bytes, in pairs of 32 bytes, keys of 6 bytes, and keys of 188 bytes with a long common prefix.
//! - Keys with an `==` of their own: a symbol is a struct of two numbers of 32 bits, and a header is a number or a
//!   text of 13 bytes. A month is one of twelve, an enum of one byte.
//! - Documents: those of `attr_doc`, with eight names in a section, compared with the same documents over the
//!   original's maps. `attr_doc` compares eight bytes of two names at once, and the other side calls Rust's
//!   `eq_ignore_ascii_case`, which compares sixteen at once, and shorter names byte by byte.
//! - Vectors: a clone, pushes, removals and insertions at the front of a plain vector of pairs, of the kit and of
//!   Rust, in a table of their own. Rows that create, clone or shift a list contain this work.
//! - Many entries: with 1,000 entries or more, only lookups, insertions, `From<Vec>` and equality are timed, in a table
//!   of their own.
//! - Commands: `1000 commands` is a mix of calls, on about as many keys as the size says. `run of 1000` and `run_set
//!   of 1000` are the same commands as values, by `run` and `run_set`. The original has no such call, so its side has
//!   the same enums of commands and replies, and the same loop over its own calls. Both times include the creation of
//!   the commands and the reading of the replies. The table `vecmap run` compares `run` and `run_set` with direct
//!   calls of the original, which create neither commands nor replies.
use crate::inputs::{Numbers, Texts};
#[cfg(peers)]
use crate::peers::{index, linear};
use crate::{original, rattle};

pub type Loop<T> = fn(&[T], &[T], u64) -> u64;

/// One loop over the original, this library and perhaps the peers.
pub struct Row<'a, T> {
    pub name: &'static str,
    /// The number of operations of one round.
    pub steps: usize,
    pub keys: &'a [T],
    pub probes: &'a [T],
    /// The name of the row of a clone, and how many such clones a round makes. Their time is subtracted.
    pub clones: Option<(&'static str, u32)>,
    /// The loops. The first is that over the original.
    pub loops: Vec<(&'static str, Loop<T>)>,
}

/// The name of this library.
const OURS: &str = "vecmap";

/// The name of the kit's vector, in rows that compare it with Rust's.
const VECTOR: &str = "the kit's Vec";

/// The name of an earlier state of this library.
#[cfg(before)]
const BEFORE: &str = "before";

/// The name of this library in rows of many entries.
const LONG: &str = "vecmap, many entries";

/// The name of this library in rows of calls that the original lacks.
const ADDED: &str = "vecmap, added calls";

/// The name of the kit's indexmap.
#[cfg(kit)]
const KIT: &str = "the kit's indexmap";

/// The name of this library in rows that are timed only to compare it with the kit's indexmap.
#[cfg(kit)]
const BESIDE_KIT: &str = "vecmap, other sizes";

/// The greatest size at which all rows are timed.
const MOST: usize = 512;

/// The sizes of the rows of commands and of documents.
pub const SIZES_OF_PROGRAMS: [usize; 4] = [8, 32, 128, 512];

/// The greatest size of the rows of months.
const MOST_MONTHS: usize = 8;

/// The size of the row of a macro.
const SIZE_OF_MACRO: usize = 4;

// A row with its name, its operations, its two inputs, and the name of its loop. An earlier state need not have it.
macro_rules! new_row {
    ($name:literal, $steps:expr, $keys:expr, $probes:expr, $loop:ident) => {{
        let loops: Vec<(&'static str, Loop<_>)> =
            vec![("vecmap-rs", original::$loop), (OURS, rattle::$loop)];
        Row {
            name: $name,
            steps: $steps,
            keys: $keys,
            probes: $probes,
            clones: None,
            loops,
        }
    }};
}

// A row that an earlier state has, too, with the peers that have it.
macro_rules! row {
    ($name:literal, $steps:expr, $keys:expr, $probes:expr, $loop:ident $(, $peer:ident)*) => {{
        #[allow(unused_mut)]
        let mut row = new_row!($name, $steps, $keys, $probes, $loop);
        #[cfg(before)]
        row.loops.push((BEFORE, rattle::before::$loop));
        $(
            #[cfg(peers)]
            row.loops.push(($peer::NAME, $peer::$loop));
        )*
        row
    }};
}

/// Returns the same rows, whose rounds clone what the row of this name clones.
fn with_clone<'a, T>(name: &'static str, mut rows: Vec<Row<'a, T>>) -> Vec<Row<'a, T>> {
    for row in &mut rows {
        row.clones = Some((name, 1));
    }
    rows
}

// The same row with its loop over the kit's indexmap.
macro_rules! with_kit {
    ($row:expr, $loop:ident) => {{
        #[allow(unused_mut)]
        let mut row = $row;
        #[cfg(kit)]
        row.loops.push((KIT, rattle::kit::$loop));
        row
    }};
}

/// Returns the rows that have a loop over the kit's indexmap, to compare this library with it at other sizes.
#[cfg(kit)]
pub fn beside_kit<T>(mut rows: Vec<Row<'_, T>>) -> Vec<Row<'_, T>> {
    rows.retain(|row| row.loops.iter().any(|(who, _)| *who == KIT));
    for row in &mut rows {
        row.loops.retain(|(who, _)| ["vecmap-rs", OURS, KIT].contains(who));
        row.loops[1].0 = BESIDE_KIT;
    }
    rows
}

/// Returns all rows over numbers.
pub fn numbers(it: &Numbers) -> Vec<Row<'_, u64>> {
    if it.keys.len() > MOST {
        return long(it);
    }
    let mut rows = lookups(it);
    rows.extend(insertions(it));
    rows.extend(added(it));
    rows.extend(removals(it));
    rows.extend(bulk(it));
    rows.extend(iteration(it));
    rows.extend(orders(it));
    rows.extend(sets(it));
    rows.extend(set_pairs(it));
    rows.extend(large(it));
    rows.extend(symbols(it));
    if it.keys.len() <= MOST_MONTHS {
        rows.extend(months(it));
    }
    if it.keys.len() == SIZE_OF_MACRO {
        rows.push(row!("vecmap! of 4", 1, &it.keys, &[], vecmap_of_4));
    }
    if SIZES_OF_PROGRAMS.contains(&it.keys.len()) {
        rows.extend(runs(it));
    }
    rows.extend(vectors(it));
    rows
}

fn lookups(it: &Numbers) -> Vec<Row<'_, u64>> {
    let n = it.keys.len();
    vec![
        with_kit!(row!("get hit", n, &it.keys, &it.hits, get, linear, index), get),
        with_kit!(row!("get miss", n, &it.keys, &it.misses, get, linear, index), get),
        row!("get_index_of", n, &it.keys, &it.mixed, place, index),
        row!("get_mut", n, &it.keys, &it.hits, get_mut, linear, index),
        row!("contains_key", n, &it.keys, &it.mixed, contains_key, linear, index),
        row!("get, char keys", n, &it.keys, &it.mixed, get_char, linear, index),
    ]
}

fn insertions(it: &Numbers) -> Vec<Row<'_, u64>> {
    let n = it.keys.len();
    vec![
        with_kit!(row!("insert new", n, &it.keys, &[], insert, linear, index), insert),
        with_kit!(row!("insert reserved", n, &it.keys, &[], insert_reserved, linear, index), insert_reserved),
        row!("insert present", n, &it.keys, &it.hits, insert_present, linear, index),
        row!("insert_full reserved", n, &it.keys, &[], insert_full, index),
        row!("insert_full present", n, &it.keys, &it.hits, insert_full_present, index),
        row!("insert_at present", 8 * n, &it.keys, &it.orders, insert_at_present),
        row!("insert_at absent", n, &it.keys, &[], insert_at_absent),
        row!("entry present", n, &it.keys, &it.hits, entry_present, linear, index),
        row!("entry absent", n, &it.keys, &[], entry_absent, linear, index),
        row!("entry count words", 4 * n, &it.keys, &it.words, count_words, index),
    ]
}

// Calls that the original lacks, in a table of their own.
fn added(it: &Numbers) -> Vec<Row<'_, u64>> {
    let n = it.keys.len();
    let mut rows = vec![
        new_row!("insert_unique new", n, &it.keys, &[], insert_unique),
        new_row!("insert_unique reserved", n, &it.keys, &[], insert_unique_reserved),
        new_row!("index_or_try_insert_with", n, &it.keys, &it.hits, index_or_insert),
        new_row!("move_index to the back", n, &it.keys, &it.hits, move_index),
        new_row!("first_value_mut", n, &it.keys, &it.hits, first_value_mut),
        new_row!("pair_mut", n, &it.keys, &it.hits, pair_mut),
        new_row!("set insert_unique new", n, &it.keys, &[], set_insert_unique),
        new_row!("set move_index to the back", n, &it.keys, &it.hits, set_move_index),
    ];
    for row in &mut rows {
        row.loops[1].0 = ADDED;
    }
    rows
}

fn removals(it: &Numbers) -> Vec<Row<'_, u64>> {
    let n = it.keys.len();
    let mut rows = vec![
        row!("remove+insert", 8 * n, &it.keys, &it.orders, remove, linear, index),
        row!("swap_remove+insert", 8 * n, &it.keys, &it.orders, swap_remove, index),
    ];
    let of_clones = vec![
        row!("remove_index front", n, &it.keys, &[], remove_front, index),
        row!("remove_index middle", n, &it.keys, &[], remove_middle, index),
        row!("pop all", n, &it.keys, &[], pop),
        row!("retain half", n, &it.keys, &[], retain),
        row!("retain all", n, &it.keys, &[], retain_all),
        row!("retain others", n, &it.keys, &[], retain_others),
        row!("drain half", n, &it.keys, &[], drain),
        row!("drain either half", n, &it.keys, &[], drain_either),
        row!("drain all, back", n, &it.keys, &[], drain_back),
        row!("split_off half", n, &it.keys, &[], split_off),
    ];
    rows.extend(with_clone("clone", of_clones));
    rows
}

fn bulk(it: &Numbers) -> Vec<Row<'_, u64>> {
    let n = it.keys.len();
    let mut rows = vec![
        row!("From<Vec> distinct", n, &it.keys, &[], from_vec, linear, index),
        row!("From<Vec> counted", n, &it.keys, &[], from_vec_counted),
        row!("From<Vec> repeats", n, &it.repeats, &[], from_vec, linear, index),
        row!("from_iter distinct", n, &it.keys, &[], from_iter, linear, index),
        row!("from_iter repeats", n, &it.repeats, &[], from_iter, linear, index),
        row!("from_iter, mapped", n, &it.keys, &[], from_iter_mapped),
        row!("clone", n, &it.keys, &[], clone, linear, index),
        row!("== same order", n, &it.keys, &[], eq, index),
        row!("== one moved", n, &it.keys, &it.moved, eq_moved, index),
        row!("== reversed", n, &it.keys, &[], eq_reversed, index),
        row!("!= at the last", n, &it.keys, &[], eq_not, index),
    ];
    let of_clones = vec![
        row!("extend half there", n, &it.keys, &it.half, extend, linear, index),
        row!("extend_refs half there", n, &it.keys, &it.half, extend_refs),
    ];
    rows.extend(with_clone("clone", of_clones));
    let mut append = row!("append half there", n, &it.keys, &it.half, append);
    append.clones = Some(("clone", 2));
    rows.push(append);
    rows
}

fn iteration(it: &Numbers) -> Vec<Row<'_, u64>> {
    let n = it.keys.len();
    vec![
        row!("iter", n, &it.keys, &[], iter),
        row!("iter, back", n, &it.keys, &[], iter_back),
        row!("iter, both ends", n, &it.keys, &[], iter_both),
        row!("keys", n, &it.keys, &[], keys),
        row!("values", n, &it.keys, &[], values),
        row!("iter_mut", n, &it.keys, &[], iter_mut),
        row!("values_mut", n, &it.keys, &[], values_mut),
        row!("clone, by value", n, &it.keys, &[], into_iter),
    ]
}

fn orders(it: &Numbers) -> Vec<Row<'_, u64>> {
    let n = it.keys.len();
    let sorts = vec![
        row!("sort_keys", n, &it.keys, &[], sort_keys),
        row!("sort_by", n, &it.keys, &[], sort_by),
        row!("sort_by_cached_key", n, &it.keys, &[], sort_by_cached_key),
        row!("sort_unstable_keys", n, &it.keys, &[], sort_unstable_keys),
        row!("sort_unstable_by", n, &it.keys, &[], sort_unstable_by),
    ];
    let mut rows = with_clone("clone", sorts);
    rows.extend([
        row!("binary_search_keys", n, &it.keys, &it.mixed, binary_search_keys),
        row!("binary_search_by", n, &it.keys, &it.mixed, binary_search_by),
        row!("binary_search_by_key", n, &it.keys, &it.mixed, binary_search_by_key),
        row!("partition_point", n, &it.keys, &it.mixed, partition_point),
    ]);
    rows
}

fn sets(it: &Numbers) -> Vec<Row<'_, u64>> {
    let n = it.keys.len();
    let mut rows = vec![
        row!("set insert", n, &it.keys, &[], set_insert, linear, index),
        row!("set contains", n, &it.keys, &it.mixed, set_contains, linear, index),
        row!("set contains, u32", n, &it.keys, &it.mixed, set_contains_u32, linear, index),
        row!("set remove+insert", 8 * n, &it.keys, &it.orders, set_remove),
        row!("set swap_take+insert", 8 * n, &it.keys, &it.orders, set_swap_take),
        row!("set From<Vec>", n, &it.keys, &[], set_from_vec, linear, index),
        row!("set clone", n, &it.keys, &[], set_clone),
        row!("set iter", n, &it.keys, &[], set_iter),
        row!("set binary_search", n, &it.keys, &it.mixed, set_binary_search),
    ];
    let of_clones = vec![
        row!("set retain half", n, &it.keys, &[], set_retain),
        row!("set retain all", n, &it.keys, &[], set_retain_all),
        row!("set drain half", n, &it.keys, &[], set_drain),
        row!("set split_off half", n, &it.keys, &[], set_split_off),
        row!("set sort", n, &it.keys, &[], set_sort),
        row!("set sort_unstable", n, &it.keys, &[], set_sort_unstable),
        row!("set extend half there", n, &it.keys, &it.half, set_extend),
    ];
    rows.extend(with_clone("set clone", of_clones));
    let mut append = row!("set append half there", n, &it.keys, &it.half, set_append);
    append.clones = Some(("set clone", 2));
    rows.push(append);
    rows
}

fn set_pairs(it: &Numbers) -> Vec<Row<'_, u64>> {
    let n = it.keys.len();
    vec![
        row!("set is_subset", n, &it.keys, &it.keys, set_subset, index),
        row!("set is_disjoint", n, &it.keys, &it.misses, set_disjoint, index),
        row!("set ==", n, &it.keys, &it.keys, set_eq, index),
        row!("set == shuffled", n, &it.keys, &it.hits, set_eq, index),
        row!("set == same order", n, &it.keys, &it.keys, set_eq_both, index),
        row!("set == one moved", n, &it.keys, &it.moved, set_eq_both, index),
        row!("set difference", n, &it.keys, &it.half, set_difference),
        row!("set difference, back", n, &it.keys, &it.half, set_difference_back),
        row!("set intersection", n, &it.keys, &it.half, set_intersection),
        row!("set union", n, &it.keys, &it.half, set_union),
        row!("set symmetric_difference", n, &it.keys, &it.half, set_symmetric_difference),
        row!("set &", n, &it.keys, &it.half, set_and),
        row!("set |", n, &it.keys, &it.half, set_or),
        row!("set -", n, &it.keys, &it.half, set_sub),
        row!("set ^", n, &it.keys, &it.half, set_xor),
    ]
}

fn large(it: &Numbers) -> Vec<Row<'_, u64>> {
    let n = it.keys.len();
    vec![
        row!("large insert new", n, &it.keys, &[], large_insert, linear, index),
        row!("large insert present", n, &it.keys, &it.hits, large_insert_present, linear, index),
        row!("large remove+insert", 8 * n, &it.keys, &it.orders, large_remove, linear, index),
        row!("large swap_rm+insert", 8 * n, &it.keys, &it.orders, large_swap_remove, index),
        row!("64-byte remove+insert", 8 * n, &it.keys, &it.orders, medium_remove, linear, index),
        row!("large From<Vec>", n, &it.keys, &[], large_from_vec, linear, index),
        row!("large entry absent", n, &it.keys, &[], large_entry, linear, index),
    ]
}

fn symbols(it: &Numbers) -> Vec<Row<'_, u64>> {
    let n = it.keys.len();
    vec![
        with_kit!(row!("symbol insert new", n, &it.keys, &[], symbol_insert, linear, index), symbol_insert),
        with_kit!(row!("symbol get", n, &it.keys, &it.mixed, symbol_get, linear, index), symbol_get),
        with_kit!(row!("symbol remove+insert", 8 * n, &it.keys, &it.orders, symbol_remove, linear, index), symbol_remove),
    ]
}

// Keys of one byte.
fn months(it: &Numbers) -> Vec<Row<'_, u64>> {
    let n = it.keys.len();
    vec![
        row!("month get hit", n, &it.places, &it.shuffled_places, month_get, linear, index),
        row!("month insert new", n, &it.places, &[], month_insert, linear, index),
    ]
}

// The same commands as calls of the original, as calls of this library and by its `run`. In the rows of runs, the side
// of the original has the same commands and replies as values, too.
fn runs(it: &Numbers) -> Vec<Row<'_, u64>> {
    let mut map = row!("1000 commands", 1000, &[], &it.commands, calls);
    map.loops.push(("vecmap run", rattle::run));
    let mut set = row!("1000 set commands", 1000, &[], &it.commands, set_calls);
    set.loops.push(("vecmap run", rattle::set_run));
    vec![
        map,
        row!("run of 1000", 1000, &[], &it.commands, run),
        set,
        row!("run_set of 1000", 1000, &[], &it.commands, set_run),
    ]
}

// The same loops over a plain vector of either side.
fn vectors(it: &Numbers) -> Vec<Row<'_, u64>> {
    let n = it.keys.len();
    let mut rows = with_clone("Vec clone", vec![row!("Vec remove(0)", n, &it.keys, &[], vec_remove)]);
    rows.extend([
        row!("Vec clone", n, &it.keys, &[], vec_clone),
        row!("Vec push", n, &it.keys, &[], vec_push),
        row!("Vec insert(0)", n, &it.keys, &[], vec_insert),
    ]);
    for row in &mut rows {
        row.loops[1].0 = VECTOR;
    }
    rows
}

// The rows of many entries.
fn long(it: &Numbers) -> Vec<Row<'_, u64>> {
    let n = it.keys.len();
    let mut rows = vec![
        row!("get hit", n, &it.keys, &it.hits, get, linear, index),
        row!("insert new", n, &it.keys, &[], insert, linear, index),
        row!("From<Vec> distinct", n, &it.keys, &[], from_vec, linear, index),
        row!("== same order", n, &it.keys, &[], eq, index),
        row!("== reversed", n, &it.keys, &[], eq_reversed, index),
    ];
    for row in &mut rows {
        row.loops[1].0 = LONG;
    }
    rows
}

/// Returns all rows over texts, of which there are `n`.
pub fn texts(it: &Texts, n: usize) -> Vec<Row<'_, u8>> {
    if n > MOST {
        return Vec::new();
    }
    let mut rows = vec![
        with_kit!(row!("String get_str hit", n, &it.keys, &it.hits, text_get, linear, index), text_get),
        with_kit!(row!("String get_str miss", n, &it.keys, &it.misses, text_get, linear, index), text_get),
        row!("String get hit", n, &it.keys, &it.hits, string_get, linear, index),
        row!("6-byte get_str hit", n, &it.short_keys, &it.short_hits, text_get, linear, index),
        row!("188-byte get_str hit", n, &it.long_keys, &it.long_hits, text_get, linear, index),
    ];
    rows.extend([
        with_kit!(row!("String insert new", n, &it.keys, &[], string_insert, linear, index), string_insert),
        row!("String remove+insert", 8 * n, &it.keys, &it.orders, string_remove),
        row!("count lines", 4 * n, &[], &it.words, count_lines, index),
        with_kit!(row!("header insert new", n, &it.keys, &[], header_insert, linear, index), header_insert),
        with_kit!(row!("header get hit", n, &it.keys, &it.hits, header_get, linear, index), header_get),
        with_kit!(row!("header remove+insert", 8 * n, &it.keys, &it.orders, header_remove, index), header_remove),
    ]);
    if SIZES_OF_PROGRAMS.contains(&n) {
        rows.extend(documents(it, n));
    }
    rows
}

fn documents(it: &Texts, n: usize) -> Vec<Row<'_, u8>> {
    vec![
        row!("document set new", n, &it.names, &[], document_new),
        row!("document set present", n, &it.names, &[], document_present),
        row!("document get", n, &it.names, &it.other_names, document_get),
        row!("document merge", n, &it.names, &it.half_names, document_merge),
        row!("document same", n, &it.names, &it.other_names, document_same),
    ]
}
