//! The work list, and two workers that go through it.

use super::rng::Rng;
use super::tally::Tally;
use super::{bench, caller, host, host_forged, module, module_forged, numbers, post, reader, talk, ubf, wire};
use std::sync::atomic::{AtomicU64, AtomicUsize, Ordering};
use std::sync::Mutex;
use std::time::{Duration, Instant};

/// One portion of inputs of a kind, made from a seed.
#[derive(Clone, Copy)]
struct Job {
    kind: &'static str,
    run: fn(&mut Tally, &mut Rng),
    /// Portions of it in a quick run.
    quick: u64,
}

const fn job(kind: &'static str, run: fn(&mut Tally, &mut Rng), quick: u64) -> Job {
    Job { kind, run, quick }
}

/// Inputs that depend on no seed, or hardly; done once.
const ONCE: [Job; 11] = [
    job("bench examples", bench::examples, 1),
    job("wire: special payloads, every room", wire::special_payloads, 1),
    job("wire: short contents", wire::short_contents, 1),
    job("wire: escapes", wire::escapes, 1),
    job("reader: all short strings", reader::short_strings, 1),
    job("reader: strings from other states", reader::strings_from_states, 1),
    job("ubf: blocks cut at every length", ubf::cut_blocks, 1),
    job("ubf: longest images", ubf::long_images, 1),
    job("module: clean transfers", module::clean_transfers, 1),
    job("host: openings", host::openings, 1),
    job("types and rates", numbers::types_and_rates, 1),
];

/// Done once in a long run, in addition.
const ONCE_LONG: [Job; 1] = [job("reader: all strings of 7", reader::longer_strings, 0)];

/// Inputs made from a seed, a portion at a time.
const RANDOM: [Job; 20] = [
    job("wire: random payloads", wire::random_payloads, 24),
    job("wire: damaged contents", wire::damaged_contents, 24),
    job("reader: damaged streams", reader::streams, 28),
    job("reader: forged states", reader::forged_states, 40),
    job("ubf: damaged blocks", ubf::damaged_blocks, 40),
    job("ubf: forged headers", ubf::forged_headers, 40),
    job("ubf: files", ubf::files, 24),
    job("ubf: faulty fields", ubf::faulty_fields, 40),
    job("module: runs", module::runs, 80),
    job("module: forged records", module_forged::records, 80),
    job("module: neighbours of records", module_forged::neighbours, 40),
    job("host: runs", host::runs, 40),
    job("host: forged records", host_forged::records, 60),
    job("host: neighbours of records", host_forged::neighbours, 40),
    job("host and module: whole loads", talk::loads, 16),
    job("caller: runs", caller::runs, 12),
    job("caller: forged records", caller::records, 12),
    job("post: runs", post::runs, 6),
    job("post: forged records", post::records, 12),
    job("agreed rates", post::agreed_rates, 4),
];

/// What a worker is to do next; none when all is done.
type Next<'a> = dyn Fn(usize, u64) -> Option<(Job, u64)> + Sync + 'a;

/// The quick run: fixed seeds.
pub fn quick() -> Vec<Tally> {
    let mut list: Vec<(Job, u64)> = ONCE.map(|job| (job, 1)).to_vec();
    for job in RANDOM {
        list.extend((1..=job.quick).map(|seed| (job, seed)));
    }
    work(&|index, _| list.get(index).copied(), false)
}

/// Goes on from a seed until at least this many inputs were compared.
pub fn long(seed: u64, wanted: u64) -> Vec<Tally> {
    let once: Vec<Job> = ONCE.into_iter().chain(ONCE_LONG).collect();
    let next = |index: usize, compared: u64| {
        if let Some(&job) = once.get(index) {
            return Some((job, seed));
        }
        let portion = index - once.len();
        let job = RANDOM[portion % RANDOM.len()];
        let round = (portion / RANDOM.len()) as u64;
        (compared < wanted).then(|| (job, seed.wrapping_add(round)))
    };
    work(&next, true)
}

/// The kinds whose name begins with a word, with some seeds one after another: a difference is found again so.
pub fn only(word: &str, seed: u64, seeds: u64) -> Vec<Tally> {
    let all = ONCE.into_iter().chain(ONCE_LONG).chain(RANDOM);
    let chosen: Vec<Job> = all.filter(|job| job.kind.starts_with(word)).collect();
    let list: Vec<(Job, u64)> =
        chosen.iter().flat_map(|&job| (0..seeds).map(move |n| (job, seed.wrapping_add(n)))).collect();
    work(&|index, _| list.get(index).copied(), false)
}

/// Does one portion. Its seed stands in front of each difference, so that it can be found again.
fn portion(job: Job, seed: u64) -> Tally {
    let mut tally = Tally::new(job.kind);
    (job.run)(&mut tally, &mut Rng::new(seed));
    for line in &mut tally.shown {
        line.insert_str(0, &format!("[seed {seed}] "));
    }
    tally
}

fn work(next: &Next, progress: bool) -> Vec<Tally> {
    let workers = std::thread::available_parallelism().map_or(1, |count| count.get());
    let index = AtomicUsize::new(0);
    let compared = AtomicU64::new(0);
    let working = AtomicUsize::new(workers);
    let all_kinds = ONCE.iter().chain(&ONCE_LONG).chain(&RANDOM);
    let tallies = Mutex::new(all_kinds.map(|job| Tally::new(job.kind)).collect::<Vec<_>>());

    std::thread::scope(|scope| {
        for _ in 0..workers {
            scope.spawn(|| {
                let _leaving = Leaving(&working);
                while let Some((job, seed)) =
                    next(index.fetch_add(1, Ordering::Relaxed), compared.load(Ordering::Relaxed))
                {
                    let tally = portion(job, seed);
                    compared.fetch_add(tally.inputs, Ordering::Relaxed);
                    let mut tallies = tallies.lock().unwrap_or_else(|poisoned| poisoned.into_inner());
                    if let Some(sum) = tallies.iter_mut().find(|sum| sum.kind == job.kind) {
                        sum.add(tally);
                    }
                }
            });
        }
        if progress {
            watch(&working, &compared);
        }
    });
    let tallies = tallies.into_inner().unwrap_or_else(|poisoned| poisoned.into_inner());
    tallies.into_iter().filter(|tally| tally.inputs > 0).collect()
}

/// Counts a worker off, even one that panicked.
struct Leaving<'a>(&'a AtomicUsize);

impl Drop for Leaving<'_> {
    fn drop(&mut self) {
        self.0.fetch_sub(1, Ordering::Relaxed);
    }
}

/// Prints how far the workers are, every few seconds.
fn watch(working: &AtomicUsize, compared: &AtomicU64) {
    let begun = Instant::now();
    let mut said = begun;
    while working.load(Ordering::Relaxed) > 0 {
        std::thread::sleep(Duration::from_millis(50));
        if said.elapsed() >= Duration::from_secs(5) {
            said = Instant::now();
            println!("{} inputs after {} s", compared.load(Ordering::Relaxed), begun.elapsed().as_secs());
        }
    }
}
