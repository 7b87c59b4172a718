// Runs vector files against the proved library through its C interface and against the lister, and compares cheap things with an
// independent implementation. Usage: harness DIR (a folder of vector files; random inputs and the examples are run too), or
// harness --bench WALKERS.
mod api;
mod bench;
mod books;
mod conventions;
mod doors;
mod elements;
mod lister;
mod padded;
mod pairs;
mod plain;
mod records;
mod sheets;
mod shelves;
mod units;
mod vectors;

use std::sync::Mutex;
use std::thread;

/// A part of the tests, which prints its lines and counts what passed and what failed.
pub type Job = Box<dyn FnOnce() -> (usize, usize) + Send>;

/// The jobs side by side, as many as there are processors, in this order.
fn side_by_side(jobs: Vec<Job>) -> (usize, usize) {
    let jobs = Mutex::new(jobs.into_iter());
    let next = || jobs.lock().expect("the jobs").next();
    let worker = || {
        let (mut passed, mut failed) = (0, 0);
        while let Some(job) = next() {
            let (a, b) = job();
            passed += a;
            failed += b;
        }
        (passed, failed)
    };
    let workers = thread::available_parallelism().map_or(1, |n| n.get());
    thread::scope(|s| {
        let all: Vec<_> = (0..workers).map(|_| s.spawn(worker)).collect();
        all.into_iter().map(|w| w.join().expect("a worker")).fold((0, 0), |(a, b), (c, d)| (a + c, b + d))
    })
}

fn main() {
    let args: Vec<String> = std::env::args().collect();
    let mut jobs: Vec<Job> = match args.get(1).map(|s| s.as_str()) {
        Some("--bench") => return bench::all(&args[2..]),
        Some(dir) => vectors::folder(dir),
        None => {
            eprintln!("usage: harness DIR | harness --bench WALKERS");
            std::process::exit(2);
        }
    };
    if jobs.is_empty() {
        eprintln!("harness: {} has no file of a kind that is known", args[1]);
        std::process::exit(2);
    }
    jobs.push(Box::new(|| lister::examples("examples")));
    jobs.push(Box::new(|| plain::random(1, 20000)));
    jobs.push(Box::new(|| pairs::random(2, 1000)));
    jobs.push(Box::new(|| shelves::random(3, 3000)));
    jobs.push(Box::new(|| shelves::begun(4, 300)));
    jobs.push(Box::new(|| padded::random(5, 1000)));
    jobs.push(Box::new(|| conventions::random(6, 1000)));
    jobs.push(Box::new(records::all));
    jobs.push(Box::new(|| sheets::random(7, 300)));
    // It waits more than it works, so it goes first.
    jobs.insert(0, Box::new(doors::all));
    let (passed, failed) = side_by_side(jobs);
    println!("{} passed, {} failed", passed, failed);
    if failed > 0 {
        std::process::exit(1);
    }
}
