//! The readings of No. 6 (document 02), each with its job: how an answer was come by.

fn is(job: &str, line: &str) {
    assert_eq!(model::run(&jobs::hex::bytes(job)).to_string(), line);
}

/// Allocation gave nothing for the raw reference, so that the slot is fresh when it is given out.
#[test]
fn a_raw_number_answered_first_and_then_given_out() {
    is(
        "03 00000000 50 51 00 0001 51 01 0000 60 02 00 0000",
        "built answers 2 1 raw 1 new pool 7 00020300000000 bootstraps 0 0 - name 0 class none visits 3",
    );
}

/// "The answer to a raw reference ... is raw, whoever owns that slot."
#[test]
fn a_raw_reference_to_a_slot_that_was_given_out() {
    is(
        "03 00000000 50 51 01 0000 51 00 0001 60 02 00 0000",
        "built answers 2 1 new 1 raw pool 7 00020300000000 bootstraps 0 0 - name 0 class none visits 3",
    );
}

/// "Or to a name that leads to one, is raw."
#[test]
fn a_name_that_leads_to_a_raw_slot() {
    let raw = "built answers 1 1 raw pool 2 0001 bootstraps 0 0 - name 0 class none visits 1";
    is("41 00 00 0001 50 51 02 00 60 02 00 0000", raw);
    is(
        "41 01 78 02 00 41 00 00 0001 50 51 02 01 78 60 02 00 0000",
        raw,
    );
}

/// "A raw definition is never reused for an equal inline constant."
#[test]
fn an_inline_constant_equal_to_a_raw_definition() {
    is(
        "03 00000000 43 0001 0000 50 51 01 0000 60 02 00 0000",
        "built answers 1 2 new pool 12 000303000000000300000000 bootstraps 0 0 - name 0 class none visits 3",
    );
}

/// Children get slots while building, after all requests.
#[test]
fn a_constant_that_is_a_child_of_one_asked_before() {
    is(
        "01 0000 07 01 0000 50 51 01 0001 51 01 0000 60 02 00 0000",
        "built answers 2 1 new 2 new pool 8 0003070002010000 bootstraps 0 0 - name 0 class none visits 5",
    );
}

/// "Whether another instruction already had that constant": the mark goes by the constant.
#[test]
fn equal_constants_from_two_entries() {
    is(
        "03 00000000 03 00000000 50 51 01 0000 51 01 0001 60 02 00 0000",
        "built answers 2 1 new 1 old pool 7 00020300000000 bootstraps 0 0 - name 0 class none visits 4",
    );
}
