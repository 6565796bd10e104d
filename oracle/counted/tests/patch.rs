//! The applier is strict, and the patch adds its one line and nothing else.

#[path = "../patch.rs"]
mod patch;

use patch::Patch;
use std::fs;
use std::path::Path;

const SMALL: &str = "--- a/f\n+++ b/f\n@@ -2,3 +2,3 @@\n two\n-three\n+drei\n four\n";

fn refusal(text: &str, original: &str) -> String {
    let result = Patch::parse(text).and_then(|patch| patch.apply(original));
    result.expect_err("the patch must be refused")
}

#[test]
fn a_fitting_patch_is_applied() {
    let patch = Patch::parse(SMALL).unwrap();
    assert_eq!(patch.path, "f");
    let changed = patch.apply("one\ntwo\nthree\nfour\nfive\n").unwrap();
    assert_eq!(changed, "one\ntwo\ndrei\nfour\nfive\n");
}

#[test]
fn two_hunks_are_applied_at_their_places() {
    let text = "--- a/f\n+++ b/f\n@@ -1,1 +1,2 @@\n a\n+b\n@@ -3,1 +4,1 @@\n-d\n+e\n";
    let changed = Patch::parse(text).unwrap().apply("a\nc\nd\n").unwrap();
    assert_eq!(changed, "a\nb\nc\ne\n");
}

#[test]
fn context_that_does_not_match_is_refused() {
    // Changed context, a changed line to remove, lines moved by one, and a file too short.
    for original in [
        "one\nTWO\nthree\nfour\n",
        "one\ntwo\nTHREE\nfour\n",
        "two\nthree\nfour\n",
        "one",
    ] {
        refusal(SMALL, original);
    }
}

#[test]
fn a_damaged_patch_is_refused() {
    let original = "one\ntwo\nthree\nfour\n";
    refusal("", original);
    refusal("--- a/f\n+++ b/g\n@@ -1,1 +1,1 @@\n one\n", original);
    refusal("--- a/f\n+++ b/f\n", original);
    refusal("--- a/f\n+++ b/f\n one\n", original);
    refusal(&SMALL.replace("-2,3", "-2,4"), original);
    refusal(&SMALL.replace("+2,3", "+2,2"), original);
    refusal(&SMALL.replace("-2,3", "-x,3"), original);
    refusal(&SMALL.replace("+drei", "?drei"), original);
}

#[test]
fn the_patch_adds_one_line_to_the_loop_of_resolve() {
    let package = Path::new(env!("CARGO_MANIFEST_DIR"));
    let text = fs::read_to_string(package.join("visits.patch")).unwrap();
    let patch = Patch::parse(&text).unwrap();
    let carried = fs::read_to_string(package.join("../krakatau").join(patch.path)).unwrap();
    let popping = "        while let Some(item) = stack.pop() {\n";
    assert_eq!(carried.matches(popping).count(), 1);
    let counting = format!("{popping}            crate::visit();\n");
    assert_eq!(
        patch.apply(&carried).unwrap(),
        carried.replace(popping, &counting)
    );
}
