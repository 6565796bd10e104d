//! The carried files are held to the sums of the published ones.

mod sha256;

use sha256::sha256;
use std::collections::BTreeMap;
use std::fs;
use std::path::{Path, PathBuf};

fn package() -> &'static Path {
    Path::new(env!("CARGO_MANIFEST_DIR"))
}

fn hex(bytes: &[u8]) -> String {
    bytes.iter().map(|byte| format!("{byte:02x}")).collect()
}

/// The lines of SHA256SUMS: a sum, two spaces, a path.
fn recorded_sums() -> BTreeMap<PathBuf, String> {
    let text = fs::read_to_string(package().join("SHA256SUMS")).unwrap();
    text.lines()
        .map(|line| {
            let (sum, path) = line.split_once("  ").unwrap();
            (PathBuf::from(path), sum.to_owned())
        })
        .collect()
}

fn files_under(folder: &Path, found: &mut Vec<PathBuf>) {
    for item in fs::read_dir(folder).unwrap() {
        let path = item.unwrap().path();
        if path.is_dir() {
            files_under(&path, found);
        } else {
            found.push(path);
        }
    }
}

#[test]
fn carried_files_have_their_recorded_sums() {
    for (path, sum) in recorded_sums() {
        let bytes = fs::read(package().join(&path)).unwrap();
        assert_eq!(hex(&sha256(&bytes)), sum, "{} was changed", path.display());
    }
}

#[test]
fn exactly_the_carried_files_are_recorded() {
    let mut found = Vec::new();
    files_under(&package().join("src"), &mut found);
    found.push(package().join("LICENSE_APACHE.txt"));
    found.push(package().join("LICENSE_MIT.txt"));
    found.sort();
    let recorded: Vec<_> = recorded_sums()
        .into_keys()
        .map(|path| package().join(path))
        .collect();
    assert_eq!(found, recorded);
}

#[test]
fn sha256_of_the_published_examples() {
    assert_eq!(
        hex(&sha256(b"abc")),
        "ba7816bf8f01cfea414140de5dae2223b00361a396177a9cb410ff61f20015ad"
    );
    assert_eq!(
        hex(&sha256(b"")),
        "e3b0c44298fc1c149afbf4c8996fb92427ae41e4649b934ca495991b7852b855"
    );
    assert_eq!(
        hex(&sha256(
            b"abcdbcdecdefdefgefghfghighijhijkijkljklmklmnlmnomnopnopq"
        )),
        "248d6a61d20638b8e5c026930c3e6039a33ce45964ff2167f6ecedd419db06c1"
    );
}
