//! The program: framed jobs in, lines out.

mod common;

use common::bytes;
use std::fs;
use std::io::Write;
use std::process::{Command, Output, Stdio};

const EMPTY_BUILD: &str = "50 60 02 00 0000";
const CLASS_AND_TEXT: &str = "01 0001 41 07 01 0000 50 51 01 0001 60 02 01 0000";

fn framed(jobs: &[&str]) -> Vec<u8> {
    let mut stream = Vec::new();
    for job in jobs {
        let job = bytes(job);
        stream.extend((job.len() as u32).to_be_bytes());
        stream.extend(job);
    }
    stream
}

fn driver(arguments: &[&str], input: &[u8]) -> Output {
    let mut child = Command::new(env!("CARGO_BIN_EXE_driver"))
        .args(arguments)
        .stdin(Stdio::piped())
        .stdout(Stdio::piped())
        .stderr(Stdio::piped())
        .spawn()
        .unwrap();
    child.stdin.take().unwrap().write_all(input).unwrap();
    child.wait_with_output().unwrap()
}

fn text(output: &[u8]) -> &str {
    std::str::from_utf8(output).unwrap()
}

#[test]
fn the_form_pass_alone() {
    // Two definitions, both constants, with one reference in them, and one request.
    let output = driver(&["form"], &framed(&[CLASS_AND_TEXT, EMPTY_BUILD, ""]));
    let expected = "formed 2 2 0 1 0 0 0 1\nformed 0 0 0 0 0 0 0 0\nrefused 3 0\n";
    assert_eq!(text(&output.stdout), expected);
}

#[test]
fn one_line_a_job() {
    let shown = driver(&[], &framed(&[EMPTY_BUILD, "", CLASS_AND_TEXT]));
    assert!(shown.status.success());
    assert_eq!(
        text(&shown.stdout),
        "built answers 0 pool 2 0001 bootstraps 0 0 - name 0 class none visits 0\n\
         refused 3 0\n\
         built answers 1 1 new pool 9 000307000201000141 bootstraps 0 0 - name 0 class 1 41 visits 4\n"
    );
}

#[test]
fn no_jobs_give_no_lines() {
    let shown = driver(&[], &[]);
    assert!(shown.status.success());
    assert_eq!(text(&shown.stdout), "");
}

#[test]
fn a_cut_frame_and_a_long_one_end_in_failure() {
    let mut cut = framed(&[EMPTY_BUILD]);
    cut.extend([0, 0, 0, 2, 7]);
    let shown = driver(&[], &cut);
    assert!(!shown.status.success());
    assert_eq!(text(&shown.stdout).lines().count(), 1);
    assert_eq!(text(&shown.stderr), "driver: the last frame is cut\n");
    let shown = driver(&["tally"], &[4, 0, 0, 1]);
    assert!(!shown.status.success());
    assert_eq!(text(&shown.stdout), "");
    assert!(text(&shown.stderr).contains("67108865 bytes"));
}

#[test]
fn tally_counts_only() {
    let jobs = ["", EMPTY_BUILD, "07010000ff", "ff", CLASS_AND_TEXT];
    let shown = driver(&["tally"], &framed(&jobs));
    assert!(shown.status.success());
    let mut expected = "jobs 5\nbuilt 2\npanics 0\nunknown 0\n".to_owned();
    for code in 1..=17 {
        let met = match code {
            3 => 2,
            4 => 1,
            _ => 0,
        };
        expected += &format!("refused {code} {met}\n");
    }
    assert_eq!(text(&shown.stdout), expected);
}

/// The times vary; the words around them do not.
#[test]
fn bench_times_each_job() {
    let file = concat!(env!("CARGO_TARGET_TMPDIR"), "/bench-jobs");
    let asks_unknown = "50 51 02 01 78 60 02 00 0000";
    fs::write(file, framed(&[EMPTY_BUILD, asks_unknown, "ff"])).unwrap();
    for arguments in [&["bench", file][..], &["bench", file, "2"][..]] {
        let shown = driver(arguments, &[]);
        assert!(shown.status.success());
        let lines: Vec<&str> = text(&shown.stdout).lines().collect();
        assert_eq!(lines.len(), 3);
        for (line, (bytes, end)) in
            lines
                .iter()
                .zip([(6, "built"), (10, "refused"), (1, "refused")])
        {
            let words: Vec<&str> = line.split(' ').collect();
            assert_eq!(words.len(), 7, "{line}");
            assert_eq!(words[0], "bench");
            assert_eq!(words[2..5], ["bytes", &bytes.to_string(), "median_us"]);
            assert!(words[5].parse::<f64>().unwrap() >= 0.0);
            assert_eq!(words[6], end);
        }
    }
}

#[test]
fn other_arguments_are_refused() {
    for arguments in [&["what"][..], &["bench"][..], &["bench", "x", "0"][..]] {
        let shown = driver(arguments, &[]);
        assert!(!shown.status.success());
        assert!(text(&shown.stderr).contains("usage"));
    }
    assert!(!driver(&["bench", "no such file"], &[]).status.success());
}
