//! The loops in Rattle: over this library, over an earlier state of it, and some over the kit's indexmap.

/// The `Input` and the `TextInput` of `bench/rattle`. A slice is a pointer and a length there, and the field
/// `alloc` has no bytes.
#[repr(C)]
struct Input<T> {
    keys: *const T,
    key_count: usize,
    probes: *const T,
    probe_count: usize,
    rounds: u64,
}

// Calls of the exports of these names, which begin with `$prefix` and `vecmap_bench_`.
macro_rules! calls {
    ($prefix:literal, $t:ty: $($name:ident)+) => {$(
        pub fn $name(keys: &[$t], probes: &[$t], rounds: u64) -> u64 {
            unsafe extern "C" {
                #[link_name = concat!($prefix, "vecmap_bench_", stringify!($name))]
                fn export(input: Input<$t>) -> u64;
            }
            let input = Input {
                keys: keys.as_ptr(),
                key_count: keys.len(),
                probes: probes.as_ptr(),
                probe_count: probes.len(),
                rounds,
            };
            // Safety: the Rattle function reads the two slices of its input and has no condition.
            unsafe { export(input) }
        }
    )+};
}

// The loops over a library whose exports begin with `$prefix`.
macro_rules! library {
    ($prefix:literal) => {
        use super::Input;

        calls! { $prefix, u64:
            from_vec from_vec_counted from_iter from_iter_mapped extend extend_refs append clone vecmap_of_4
            insert insert_reserved insert_unique insert_unique_reserved index_or_insert move_index
            first_value_mut pair_mut insert_full insert_present insert_full_present insert_at_present
            insert_at_absent entry_present entry_absent count_words eq eq_moved eq_reversed eq_not iter
            iter_back iter_both keys values iter_mut values_mut into_iter large_insert large_insert_present
            large_remove large_swap_remove medium_remove large_from_vec large_entry get place get_mut
            contains_key get_char sort_keys sort_by sort_by_cached_key sort_unstable_keys sort_unstable_by
            binary_search_keys binary_search_by binary_search_by_key partition_point retain retain_all
            retain_others drain drain_back drain_either pop split_off remove swap_remove remove_front
            remove_middle run calls set_insert set_insert_unique set_move_index set_contains set_contains_u32
            set_subset set_disjoint set_eq set_eq_both set_clone set_extend set_append set_from_vec
            set_difference set_intersection set_union set_symmetric_difference set_difference_back set_and
            set_or set_sub set_xor set_iter set_remove set_swap_take set_retain set_retain_all set_drain
            set_split_off set_sort set_sort_unstable set_binary_search set_run set_calls symbol_insert
            symbol_get symbol_remove month_insert month_get vec_clone vec_push vec_remove vec_insert
        }

        calls! { $prefix, u8:
            document_new document_present document_get document_merge document_same text_get string_get
            string_insert string_remove count_lines header_insert header_get header_remove
        }
    };
}

mod now {
    library!("");
}

pub use now::*;

#[cfg(before)]
#[allow(dead_code)]
pub mod before {
    library!("before_");
}

#[cfg(kit)]
#[allow(dead_code)]
pub mod kit {
    library!("kit_");
}
