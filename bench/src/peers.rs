//! The loops over the peers, if their folders are given.

/// indexmap, with its own hasher.
pub mod index {
    use crate::inputs::{half, letter};
    use crate::keys::{Header, Month, Symbol};
    use indexmap::{IndexMap, IndexSet};

    pub const NAME: &str = "indexmap";

    map_loops!(IndexMap, shift_remove, IndexMap::last, |pairs: Vec<_>| {
        IndexMap::<_, _>::from_iter(pairs)
    });
    placed_loops!(IndexMap, shift_remove_index, Option::unwrap);
    equality_loops!(IndexMap::get_index_mut);
    large_loops!(IndexMap, shift_remove, IndexMap::last, |pairs: Vec<_>| {
        IndexMap::<_, _>::from_iter(pairs)
    });
    placed_large_loops!(IndexMap);
    set_loops!(IndexSet, |items: Vec<_>| IndexSet::<_>::from_iter(items));
    placed_set_loops!(IndexSet);
    text_loops!(IndexMap);
    placed_text_loops!(IndexMap);
    own_key_loops!(IndexMap, shift_remove);
    own_key_removals!(IndexMap, shift_remove_entry);
}

/// linear-map.
pub mod linear {
    use crate::inputs::{half, letter};
    use crate::keys::{Header, Month, Symbol};
    use linear_map::LinearMap;
    use linear_map::set::LinearSet;

    pub const NAME: &str = "linear-map";

    map_loops!(
        LinearMap,
        remove,
        |map| LinearMap::iter(map).next_back(),
        |pairs: Vec<_>| LinearMap::from_iter(pairs)
    );
    large_loops!(
        LinearMap,
        remove,
        |map| LinearMap::iter(map).next_back(),
        |pairs: Vec<_>| LinearMap::from_iter(pairs)
    );
    set_loops!(LinearSet, |items: Vec<_>| LinearSet::from_iter(items));
    text_loops!(LinearMap);
    own_key_loops!(LinearMap, remove);
}
