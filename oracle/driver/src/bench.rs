//! Times the module alone: no decoding, no formatting.

use crate::form;
use crate::run::{caught, plain, with_hex_names};
use std::time::{Duration, Instant};

/// `bench INDEX bytes B median_us T refused|built` for one job. A job that the form pass refuses
/// never reaches the module and takes it no time.
pub fn line(index: usize, job: &[u8], runs: usize) -> String {
    let (median, end) = match form::decode(job) {
        Ok(records) => median_of_runs(&with_hex_names(&records), runs),
        Err(_) => (Duration::ZERO, "refused"),
    };
    let median_us = median.as_secs_f64() * 1e6;
    format!(
        "bench {index} bytes {} median_us {median_us:.1} {end}",
        job.len()
    )
}

fn median_of_runs(records: &[jobs::record::Record], runs: usize) -> (Duration, &'static str) {
    let mut times = Vec::new();
    let mut end = "";
    for _ in 0..runs {
        let plan = plain::plan(records);
        let mut time = Duration::ZERO;
        let ending = caught(|| {
            let start = Instant::now();
            let result = plain::execute(plan);
            time = start.elapsed();
            result
        });
        times.push(time);
        end = match ending {
            Ok(Ok(_)) => "built",
            Ok(Err(_)) => "refused",
            Err(_) => "panic",
        };
    }
    times.sort();
    (times[times.len() / 2], end)
}
