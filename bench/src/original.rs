//! The loops over vecmap-rs, the original.
mod algebra;
mod bulk;
mod document;
mod documents;
mod iteration;
mod order;
mod parts;
mod runs;
mod set_parts;
mod set_runs;
mod vectors;

pub use algebra::*;
pub use bulk::*;
pub use documents::*;
pub use iteration::*;
pub use order::*;
pub use parts::*;
pub use runs::*;
pub use set_parts::*;
pub use set_runs::*;
pub use vectors::*;

use crate::inputs::{half, letter};
use crate::keys::{Header, Month, Symbol};
use vecmap::{VecMap, VecSet};

map_loops!(VecMap, remove, VecMap::last, VecMap::from);
placed_loops!(VecMap, remove_index, |pair| pair);
equality_loops!(VecMap::get_index_mut);
large_loops!(VecMap, remove, VecMap::last, VecMap::from);
placed_large_loops!(VecMap);
set_loops!(VecSet, VecSet::from);
placed_set_loops!(VecSet);
text_loops!(VecMap);
placed_text_loops!(VecMap);
removed_text_loops!(VecMap);
own_key_loops!(VecMap, remove);
own_key_removals!(VecMap, remove_entry);

// Returns the last element and the number of elements, combined in one number.
fn set_mark(set: &VecSet<u64>) -> u64 {
    match set.last() {
        Some(item) => item.wrapping_add(set.len() as u64),
        None => 0,
    }
}
