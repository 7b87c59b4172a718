// Measures what a customer waits for: steps of the walk, a sheet, an opening, the unit and its rescaling, series, a full book. Baselines are
// walkers of the same job that take p, G, H and a budget and print "N steps/s"; each is run beside ours, in one run.
use crate::api::{self, Field, WalkRecord, CLOSED, OPEN};
use crate::plain::Numbers;
use crate::vectors::list;
use std::process::Command;
use std::time::Instant;

const BUDGET: u64 = 60000;
const ROUNDS: usize = 7;

/// p, G, H of walks over a range of degrees.
const FIELDS: [(u64, &str, &str); 9] = [
    (5, "4,2,2,3,1,1", "3,0,4,4,1,1"),
    (5, "1,0,1,2,1,3,4,2,1", "3,4,3,3,1,0,2,2,1"),
    (17, "2,12,9,1", "5,3,5,1"),
    (29, "24,12,24,1", "1,10,16,1"),
    (29, "3,23,10,13,27,1", "17,4,1"),
    (983, "279,15,1", "864,740,1"),
    (65519, "17520,11206,1", "33157,52358,1"),
    (65519, "16567,1633,41814,40412,1", "44429,7179,64479,27768,1"),
    (65519, "58115,44382,38112,29353,59437,36205,42366,2060,1", "44639,59791,18589,12270,25091,42666,58812,32478,1"),
];

/// The least seconds of three calls, and what the last one gave.
fn least<T>(mut f: impl FnMut() -> T) -> (f64, T) {
    let mut best = f64::MAX;
    let mut last = None;
    for _ in 0..3 {
        let t = Instant::now();
        last = Some(f());
        best = best.min(t.elapsed().as_secs_f64());
    }
    (best, last.expect("three calls"))
}

/// Steps a second of one walk of ours from the order.
fn steps_per_second(x: &Field) -> f64 {
    let mut rows = [0; 119];
    assert_eq!(x.order(&mut rows), 0);
    let t = Instant::now();
    let (_, steps, _) = x.walk(BUDGET, &mut rows);
    steps as f64 / t.elapsed().as_secs_f64()
}

/// The same of another walker, if it says a number.
fn other(program: &str, p: u64, g: &str, h: &str) -> Option<f64> {
    let out = Command::new(program).args([&p.to_string(), g, h, &BUDGET.to_string()]).output().ok()?;
    let text = String::from_utf8_lossy(&out.stdout).into_owned();
    let words: Vec<&str> = text.split_whitespace().collect();
    let i = words.iter().position(|w| w.starts_with("steps/s"))?;
    words.get(i.checked_sub(1)?)?.parse().ok()
}

/// The best of some rounds, in which the walkers take turns: what disturbs the machine for a while disturbs all of them.
fn walks(others: &[String]) {
    for (p, g, h) in FIELDS {
        let x = Field { p, g: list(g), h: list(h) };
        let mut ours = 0f64;
        let mut theirs = vec![0f64; others.len()];
        for _ in 0..ROUNDS {
            ours = ours.max(steps_per_second(&x));
            for (o, best) in others.iter().zip(theirs.iter_mut()) {
                *best = best.max(other(o, p, g, h).unwrap_or(0.0));
            }
        }
        print!("walk p={} degrees {} {}: {:.0} steps/s", p, x.g.len() - 1, x.h.len() - 1, ours);
        for (o, best) in others.iter().zip(&theirs) {
            let name = o.rsplit('/').next().unwrap_or(o);
            if *best > 0.0 {
                print!("; {} {:.0}, ratio {:.2}", name, best, ours / best);
            } else {
                print!("; {} says nothing", name);
            }
        }
        println!();
    }
}

/// The seconds of a sheet, and of as many walks by calls of their own; both take the same steps.
fn sheet_and_walks(starts: &[WalkRecord], fields: &[Field], budget: u64) -> (f64, f64) {
    let (mut records, mut bases) = (starts.to_vec(), starts.iter().map(|r| r.basis).collect::<Vec<_>>());
    let t = Instant::now();
    assert_eq!(api::sheet(&mut records, budget), 0);
    let sheet = t.elapsed().as_secs_f64();
    let t = Instant::now();
    let told: Vec<(u32, u64, u64)> = fields.iter().zip(bases.iter_mut()).map(|(x, rows)| x.walk(budget, rows)).collect();
    let walks = t.elapsed().as_secs_f64();
    for ((r, told), rows) in records.iter().zip(told).zip(bases) {
        let state = if told.0 == 0 { CLOSED } else { OPEN };
        assert!((r.state, r.steps, r.sum, r.basis) == (state, told.1, told.2, rows), "a sheet and walks differ");
    }
    (sheet, walks)
}

/// A sheet of 64 beside 64 walks of the same fields and budgets: the best of some rounds, in which they take turns.
fn sheets() {
    let fields: Vec<Field> = FIELDS.iter().cycle().take(64).map(|&(p, g, h)| Field { p, g: list(g), h: list(h) }).collect();
    let starts: Vec<WalkRecord> = fields.iter().map(|x| WalkRecord::start(x.p, &x.g, &x.h)).collect();
    for budget in [10, 100, 1000] {
        let rounds = (0..ROUNDS).map(|_| sheet_and_walks(&starts, &fields, budget));
        let (sheet, walks) = rounds.fold((f64::MAX, f64::MAX), |(a, b), (c, d)| (a.min(c), b.min(d)));
        println!("a sheet of 64, budget {}: {:.1} ms; 64 walks {:.1} ms, ratio {:.3}", budget, 1000.0 * sheet, 1000.0 * walks, sheet / walks);
    }
}

/// Opening a field: the tests for a square and a shared factor are most of it.
fn openings() {
    let x = Field { p: 65519, g: list(FIELDS[8].1), h: list(FIELDS[8].2) };
    let (t, n) = least(|| (0..100_000).map(|_| x.refusal()).max());
    println!("100,000 openings of degrees 8 and 8: {:.1} ms (refusal {})", 1000.0 * t, n.unwrap_or(0));
}

fn series() {
    let x = Field { p: 65519, g: list(FIELDS[8].1), h: list(FIELDS[8].2) };
    let (mut r, mut w) = (vec![0; 4096], vec![0; 4096]);
    let (t, n) = least(|| x.series(&mut r, &mut w));
    println!("series k=4096: {:.1} ms (refusal {})", 1000.0 * t, n);
}

fn units() {
    let x = Field { p: 17, g: vec![4, 1], h: vec![12, 5, 11, 1, 1] };
    let (mut rows, mut scratch) = (vec![0; 6 * 4096], vec![0; 6 * 4096]);
    let (t, told) = least(|| x.unit(1000000, &mut rows, &mut scratch));
    let (w, _) = least(|| x.from_order(1000000));
    println!("unit p=17 degrees 1 4, c=4096: {:.1} ms, its walk {:.1} ms (refusal {}, period {}, regulator {})", 1000.0 * t, 1000.0 * w, told.0, told.1, told.2);
    let (t, told) = least(|| (x.rescale(1, 2, &mut rows), x.rescale(2, 1, &mut rows)));
    println!("its rows turned from convention 1 to 2 and back: {:.1} ms (refusals {} and {})", 1000.0 * t, told.0, told.1);
}

/// A book of as many small bodies as 65,536 bytes hold.
fn full_book() -> Vec<u8> {
    let mut book = vec![0; 65536];
    book[..4].copy_from_slice(b"PCF1");
    let mut n = 6;
    for i in 1.. {
        let x = Field { p: 65519, g: vec![0, 1], h: vec![i, 1] };
        let mut body = [0; 64];
        let s = x.write(1, &[vec![1, 0, 1], vec![1], vec![1]], &mut body);
        assert_eq!(s.number, 0);
        let added = api::book_add(&mut book, n, &body[..s.result as usize]);
        if added.number != 0 {
            break;
        }
        n = added.result as usize;
    }
    book.truncate(n);
    book
}

fn books() {
    let book = full_book();
    let (t, s) = least(|| api::book_check(&book));
    println!("check of a book of {} bytes and {} bodies: {:.1} ms (refusal {})", book.len(), api::book_bodies(&book), 1000.0 * t, s.number);
    let mut n = Numbers::new(3);
    let mut some = |k: usize| -> Vec<u64> { (0..k).map(|i| if i + 1 == k { 1 } else { n.below(65519) }).collect() };
    let x = Field { p: 65519, g: list(FIELDS[8].1), h: list(FIELDS[8].2) };
    let mut body = vec![0; 65000];
    let s = x.write(1, &[some(4095), some(4096), some(4096)], &mut body);
    let mut book = vec![0; 65536];
    book[..4].copy_from_slice(b"PCF1");
    let added = api::book_add(&mut book, 6, &body[..s.result as usize]);
    let (t, a) = least(|| api::book_attest(&book[..added.result as usize], 0));
    println!("attest of lists of 4,095, 4,096 and 4,096: {:.0} ms (refusal {}, result {})", 1000.0 * t, a.number, a.result);
}

pub fn all(others: &[String]) {
    walks(others);
    sheets();
    openings();
    units();
    series();
    books();
}
