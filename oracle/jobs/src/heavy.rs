//! Heavy jobs: a fixed list that reaches the limits random jobs never meet.

mod bootstraps;
mod expressions;
mod names;
mod slots;
mod tables;
mod towers;
mod volume;

use crate::record::{Record, Reference};

pub type Heavy = fn() -> Vec<u8>;

/// Each job with a name that says what it is about and which refusal it should meet, if any.
pub const LIST: &[(&str, Heavy)] = &[
    ("length_1048576", tables::longest),
    ("length_1048577_refusal_1", tables::too_long),
    (
        "length_1048577_unknown_kind_refusal_1",
        tables::too_long_unknown_kind,
    ),
    ("constants_65536", tables::constants_full),
    ("constants_65536_last_cited", tables::last_constant_cited),
    ("constants_65537_refusal_5", tables::constants_over),
    ("constant_65537_cut_refusal_3", tables::constant_over_cut),
    (
        "constant_65537_cites_missing_refusal_5",
        tables::constant_over_cites_missing,
    ),
    ("bootstraps_65536", tables::bootstraps_full),
    ("bootstraps_65536_last_cited", tables::last_bootstrap_cited),
    ("bootstraps_65537_refusal_5", tables::bootstraps_over),
    (
        "bootstrap_65537_cites_missing_refusal_5",
        tables::bootstrap_over_cites_missing,
    ),
    ("both_tables_full", tables::both_full),
    ("slots_all_raw", slots::all_raw_unasked),
    ("slots_all_raw_ask_refusal_14", slots::all_raw_ask),
    ("slots_all_raw_ldc_refusal_15", slots::all_raw_ldc),
    ("slots_all_raw_wide_refusal_14", slots::all_raw_ask_wide),
    ("slots_all_raw_ldc_wide_refusal_15", slots::all_raw_ldc_wide),
    ("slots_all_raw_name_refusal_14", slots::all_raw_name),
    ("slots_all_raw_longs", slots::all_raw_longs),
    (
        "slots_all_raw_but_one_child_fits",
        slots::one_left_for_child,
    ),
    (
        "slots_all_raw_but_one_child_refusal_14",
        slots::one_left_for_two,
    ),
    ("slots_full_by_asks", slots::full_by_asks),
    ("slots_over_by_asks_refusal_14", slots::over_by_asks),
    ("slots_full_with_name", slots::full_with_name),
    (
        "slots_full_without_name_refusal_14",
        slots::full_name_refused,
    ),
    ("longs_fill", slots::longs_fill),
    ("longs_over_refusal_14", slots::longs_over),
    (
        "longs_over_after_one_int_refusal_14",
        slots::longs_over_after_int,
    ),
    ("gaps_filled", slots::gaps_filled),
    ("gaps_over_refusal_14", slots::gaps_over),
    ("gaps_narrow_and_wide_filled", slots::gaps_mixed_filled),
    ("singles_filled", slots::singles_filled),
    ("singles_wide_refusal_14", slots::singles_wide),
    ("singles_ldc_wide_refusal_15", slots::singles_ldc_wide),
    ("singles_and_last_pair_wide", slots::last_pair_wide),
    ("low_raw_ldc_int_refusal_15", slots::low_raw_ldc_int),
    ("low_raw_ldc_long_refusal_16", slots::low_raw_ldc_long),
    ("low_raw_ldc_raw_255", slots::low_raw_ldc_raw_255),
    ("low_raw_ldc_raw_256_refusal_16", slots::low_raw_ldc_raw_256),
    ("low_raw_ldc_of_high_refusal_16", slots::low_raw_ldc_of_high),
    (
        "low_singles_ldc_long_refusal_16",
        slots::low_singles_ldc_long,
    ),
    ("ldc_takes_255", slots::ldc_takes_255),
    ("ldc_after_255_refusal_15", slots::ldc_after_255),
    ("indexes_all_raw", bootstraps::all_raw_only),
    (
        "indexes_all_raw_inline_refusal_17",
        bootstraps::all_raw_inline,
    ),
    ("indexes_but_last_raw_inline", bootstraps::last_free_inline),
    (
        "indexes_but_middle_raw_inline",
        bootstraps::middle_free_inline,
    ),
    (
        "indexes_but_middle_raw_shared_inline",
        bootstraps::middle_free_shared,
    ),
    (
        "indexes_but_middle_raw_two_inlines_refusal_17",
        bootstraps::middle_free_two,
    ),
    (
        "indexes_but_last_raw_equal_numbers",
        bootstraps::last_free_equal_numbers,
    ),
    (
        "indexes_but_middle_raw_equal_numbers",
        bootstraps::middle_free_equal_numbers,
    ),
    (
        "indexes_but_first_raw_equal_numbers",
        bootstraps::first_free_equal_numbers,
    ),
    (
        "indexes_but_last_raw_equal_numbers_and_another_refusal_17",
        bootstraps::last_free_equal_numbers_and_another,
    ),
    (
        "slots_and_indexes_all_raw_inline_handle_refusal_14",
        bootstraps::nothing_left_inline_handle,
    ),
    (
        "slots_and_indexes_all_raw_raw_handle_refusal_17",
        bootstraps::nothing_left_raw_handle,
    ),
    ("indexes_full_by_allocation", bootstraps::full_by_allocation),
    (
        "indexes_over_by_allocation_refusal_17",
        bootstraps::over_by_allocation,
    ),
    ("index_65534_alone", bootstraps::last_index_alone),
    ("alias_chain_60000", names::chain_forward),
    ("alias_chain_60000_backward", names::chain_backward),
    ("alias_chain_104000", names::chain_longest),
    (
        "alias_chain_40000_asked_everywhere",
        names::chain_asked_everywhere,
    ),
    (
        "alias_chain_60000_undefined_refusal_12",
        names::chain_undefined,
    ),
    ("alias_circle_60000_unused", names::circle_unused),
    ("alias_circle_60000_refusal_13", names::circle_asked),
    ("bootstrap_alias_chain_60000", names::bootstrap_chain),
    ("names_60000_first_doubled_refusal_11", names::first_doubled),
    ("names_with_equal_sums", names::equal_sums),
    ("names_255_bytes_alike_to_the_end", names::alike_to_the_end),
    ("class_tower_65534", towers::classes_full),
    ("class_tower_65535_refusal_14", towers::classes_over),
    (
        "class_tower_60000_circular_refusal_13",
        towers::classes_circular,
    ),
    ("handle_tower_60000", towers::handles),
    ("dynamic_tower_50000", towers::dynamics),
    ("named_tower_60000_forward", towers::named_forward),
    ("twin_towers_30000", towers::twins),
    ("arguments_65535", volume::one_wide_bootstrap),
    ("arguments_five_times_65535", volume::five_wide_bootstraps),
    (
        "arguments_65535_alike_to_the_end",
        volume::alike_wide_bootstraps,
    ),
    (
        "dynamics_1000_over_20000_arguments",
        volume::dynamics_over_wide_bootstrap,
    ),
    ("asks_262000", volume::many_asks),
    ("text_1000_raw_5000_times", volume::repeated_text),
    ("ints_with_equal_low_halves", volume::equal_low_halves),
    ("texts_with_equal_sums", volume::equal_sums),
    ("texts_65535_bytes_alike_to_the_end", volume::alike_texts),
    ("equal_ints_60000", volume::equal_ints),
    (
        "expression_500000_and_60000_equal",
        expressions::equal_to_a_long_one,
    ),
    ("expression_1048565_of_ints", expressions::ints),
    ("expression_1048565_of_floats", expressions::floats),
    ("expression_1048559_of_longs", expressions::longs),
    ("expression_1048559_of_doubles", expressions::doubles),
    (
        "expression_divided_by_zero_at_the_end_refusal_23",
        expressions::divided_at_the_end,
    ),
    (
        "expression_mixed_at_the_end_refusal_22",
        expressions::mixed_at_the_end,
    ),
    (
        "expression_33_deep_at_the_end_refusal_22",
        expressions::deep_at_the_end,
    ),
    (
        "expression_32_deep_at_the_end",
        expressions::deepest_at_the_end,
    ),
    ("expression_170000_deep_refusal_22", expressions::deep),
    ("expression_of_1048575_signs_refusal_3", expressions::signs),
    (
        "expression_of_signs_and_a_bad_byte_refusal_22",
        expressions::signs_and_a_bad_byte,
    ),
    ("expressions_60000", expressions::sums_of_their_own),
    (
        "expressions_60000_of_one_value",
        expressions::sums_of_one_value,
    ),
    (
        "constants_65536_last_worked",
        expressions::last_of_the_table,
    ),
    (
        "constant_65537_expression_bad_refusal_5",
        expressions::over_with_a_bad_byte,
    ),
    (
        "constant_65537_expression_divided_by_zero_refusal_5",
        expressions::over_divided_by_zero,
    ),
    (
        "constant_65537_expression_cut_refusal_3",
        expressions::over_and_cut,
    ),
];

fn number(i: usize) -> u16 {
    u16::try_from(i).expect("entry numbers and slots fit two bytes")
}

fn entry(i: usize) -> Reference {
    Reference::Entry(number(i))
}

fn named(name: &[u8]) -> Reference {
    Reference::Name(name.to_vec())
}

fn ask_for(reference: Reference) -> Record {
    Record::Ask(reference)
}
