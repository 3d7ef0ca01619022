//! The times of several pieces of work, in turns: each reads, packs or unpacks all of the same texts.
use crate::clock;

/// A measurement takes at least so long: a clock's step and an interrupt are then small beside it.
const LEAST_NANOSECONDS: f64 = 5_000_000.0;

/// Nanoseconds to do the work once.
#[derive(Clone, Copy)]
pub struct Times {
    pub median: f64,
    pub least: f64,
}

fn measure(work: &mut impl FnMut(), repetitions: usize) -> f64 {
    let start = clock::nanoseconds();
    for _ in 0..repetitions {
        work();
    }
    (clock::nanoseconds() - start) / repetitions as f64
}

/// How often the work is done in one measurement; finding it out warms it up.
fn repetitions(work: &mut impl FnMut()) -> usize {
    let mut tried = 1;
    loop {
        let taken = measure(work, tried) * tried as f64;
        if taken >= LEAST_NANOSECONDS {
            return tried;
        }
        tried = (tried as f64 * (1.2 * LEAST_NANOSECONDS / taken).clamp(1.2, 10.0)).ceil() as usize;
    }
}

fn times(mut measured: Vec<f64>) -> Times {
    measured.sort_by(f64::total_cmp);
    Times { median: measured[measured.len() / 2], least: measured[0] }
}

/// One measurement of each a round, so that what disturbs the machine for a while disturbs them all.
pub fn race<const N: usize>(mut works: [impl FnMut(); N], rounds: usize) -> [Times; N] {
    let repeated = works.each_mut().map(repetitions);
    let mut measured = [const { Vec::new() }; N];
    for _ in 0..rounds {
        for (i, work) in works.iter_mut().enumerate() {
            measured[i].push(measure(work, repeated[i]));
        }
    }
    measured.map(times)
}
