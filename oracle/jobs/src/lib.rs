//! Jobs of document 01, and of document 02 with records 46 to 49: their records, and seeded generators of them.

pub mod damaged;
pub mod heavy;
pub mod hex;
pub mod large;
pub mod lowest;
pub mod make;
pub mod pairs;
pub mod random;
pub mod record;
pub mod settings;
pub mod small;
pub mod stream;
pub mod worked;

/// The longest job that is not refused for its length.
pub const JOB_LIMIT: usize = 1_048_576;
