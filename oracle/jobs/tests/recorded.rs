//! The same seed gives the same bytes: hashes recorded when the generators were written.
//! A change of a generator changes them; then record the new ones.

use jobs::large;
use jobs::random::Random;
use jobs::record::encode;
use jobs::stream::{heavy_jobs, seeded};

const RECORDED: [(&str, u64); 17] = [
    ("small", 0x9264_b943_53df_e0fd),
    ("ldcfull", 0xa876_3ac8_7897_08b0),
    ("damaged", 0xb7ab_379a_cd71_7249),
    ("pairs", 0xcbf9_1237_966f_5ab3),
    ("orders", 0x1dbc_ac22_2798_3339),
    ("settings", 0x1dc5_f887_4fe0_b81f),
    ("settings_damaged", 0xb510_48cf_8e90_7da4),
    ("settings_pairs", 0x587d_c175_1b06_fadb),
    ("lowest", 0x41e7_d7f7_87dc_5c04),
    ("lowest_full", 0xc9c0_bef5_ed89_3b10),
    ("lowest_pairs", 0x1c9a_f059_ef5e_02e9),
    ("worked", 0x0312_3293_2c60_a7c6),
    ("worked_damaged", 0xdee4_0fca_f236_80d7),
    ("worked_pairs", 0x2bac_d0fd_1574_1339),
    ("worked_orders", 0xa382_3823_1f54_5376),
    ("heavy", 0xd164_eeca_68df_0fce),
    ("large", 0xb587_779e_3f02_253b),
];

/// FNV-1a over the framed jobs.
fn hash(jobs: impl Iterator<Item = Vec<u8>>) -> u64 {
    let mut hash: u64 = 0xcbf2_9ce4_8422_2325;
    for job in jobs {
        let length = u32::try_from(job.len()).unwrap().to_be_bytes();
        for byte in length.iter().chain(&job) {
            hash = (hash ^ u64::from(*byte)).wrapping_mul(0x100_0000_01b3);
        }
    }
    hash
}

/// A kind's hash, with the two jobs of a pair as one.
fn of_kind(kind: &'static str) -> (&'static str, u64) {
    first_of_kind(kind, 300)
}

fn first_of_kind(kind: &'static str, count: usize) -> (&'static str, u64) {
    let step = seeded(kind).unwrap();
    let mut random = Random::new(1);
    (kind, hash((0..count).map(|_| step(&mut random).concat())))
}

#[test]
fn jobs_are_those_recorded() {
    let found = [
        of_kind("small"),
        of_kind("ldcfull"),
        of_kind("damaged"),
        of_kind("pairs"),
        of_kind("orders"),
        of_kind("settings"),
        of_kind("settings_damaged"),
        of_kind("settings_pairs"),
        of_kind("lowest"),
        first_of_kind("lowest_full", 10),
        of_kind("lowest_pairs"),
        of_kind("worked"),
        of_kind("worked_damaged"),
        of_kind("worked_pairs"),
        of_kind("worked_orders"),
        ("heavy", hash(heavy_jobs())),
        (
            "large",
            hash(large::KINDS.iter().map(|(_, make)| encode(&make(1_000)))),
        ),
    ];
    assert_eq!(found, RECORDED);
}
