//! The program: framed jobs in, lines out, and the model held to the module on generated jobs.

use jobs::heavy::LIST;
use jobs::hex::bytes;
use jobs::stream::frame;
use std::io::Write;
use std::process::{Command, Output, Stdio};

/// The driver takes a minute for it, the module 0.2 seconds.
const SLOW: &str = "alias_chain_40000_asked_everywhere";

fn model(arguments: &[&str], input: &[u8]) -> Output {
    let mut child = Command::new(env!("CARGO_BIN_EXE_model"))
        .args(arguments)
        .stdin(Stdio::piped())
        .stdout(Stdio::piped())
        .stderr(Stdio::piped())
        .spawn()
        .unwrap();
    child.stdin.take().unwrap().write_all(input).unwrap();
    child.wait_with_output().unwrap()
}

fn text(output: &[u8]) -> &str {
    std::str::from_utf8(output).unwrap()
}

#[test]
fn one_line_a_job() {
    let mut input = vec![];
    for job in ["50 60 02 00 0000", "", "ff"] {
        frame(&mut input, &bytes(job)).unwrap();
    }
    let shown = model(&[], &input);
    assert!(shown.status.success());
    assert_eq!(
        text(&shown.stdout),
        "built answers 0 pool 2 0001 bootstraps 0 0 - name 0 class none visits 0\n\
         refused 3 0\n\
         refused 3 0\n"
    );
}

/// No. 9's place, and the record in turn.
#[test]
fn the_place_or_the_record_in_turn() {
    let mut input = vec![];
    let job = "49 0001 03 00000000 08 01 0000 50 51 01 0001 60 02 00 0000";
    frame(&mut input, &bytes(job)).unwrap();
    assert_eq!(text(&model(&[], &input).stdout), "refused 14 1\n");
    assert_eq!(text(&model(&["in_turn"], &input).stdout), "refused 14 5\n");
}

#[test]
fn cut_frames_and_other_arguments_are_refused() {
    assert!(!model(&[], &[0, 0, 0, 2, 7]).status.success());
    for arguments in [
        &["what"][..],
        &["hold"][..],
        &["hold", "small", "1"][..],
        &["hold", "what", "1", "9"][..],
        &["hold", "heavy", "what"][..],
    ] {
        let shown = model(arguments, &[]);
        assert!(!shown.status.success());
        assert!(text(&shown.stderr).contains("usage"), "{arguments:?}");
    }
}

/// Holds the model to the module on a part of so many jobs.
fn hold(part: &[&str], jobs: &str) {
    let arguments: Vec<&str> = ["hold"].iter().chain(part).copied().collect();
    let held = model(&arguments, &[]);
    let told = text(&held.stdout);
    assert!(held.status.success(), "{told}");
    assert!(told.contains(&format!("{jobs} jobs")), "{told}");
    assert!(told.contains(" 0 different"), "{told}");
}

#[test]
fn generated_jobs_end_as_in_the_module() {
    hold(&["small", "9101", "4000"], "4,000");
    hold(&["damaged", "9102", "4000"], "4,000");
    hold(&["pairs", "9103", "2000"], "2,000");
    hold(&["orders", "9104", "2000"], "2,000");
    hold(&["ldcfull", "9105", "2000"], "2,000");
    hold(&["settings", "9106", "4000"], "4,000");
    hold(&["settings_damaged", "9107", "4000"], "4,000");
    hold(&["settings_pairs", "9108", "2000"], "2,000");
    hold(&["lowest", "9109", "4000"], "4,000");
    hold(&["worked", "9111", "4000"], "4,000");
    hold(&["worked_damaged", "9112", "4000"], "4,000");
    hold(&["worked_pairs", "9113", "2000"], "2,000");
    hold(&["lowest_full", "9110", "20"], "20");
}

#[test]
fn heavy_jobs_end_as_in_the_module() {
    let names = LIST.iter().map(|(name, _)| *name);
    let mut part: Vec<&str> = names.filter(|name| *name != SLOW).collect();
    let jobs = part.len().to_string();
    part.insert(0, "heavy");
    hold(&part, &jobs);
}
