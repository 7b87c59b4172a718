// Vector files by name. A file whose kind is not known is reported and skipped.
use crate::api::{Field, Record};
use crate::{books, conventions, lister, pairs, sheets, units, Job};
use std::fs;

/// What a case says went wrong, or nothing.
pub type Verdict = Result<(), String>;

/// Fails with a text unless a condition holds.
pub fn ensure(ok: bool, why: impl FnOnce() -> String) -> Verdict {
    if ok {
        Ok(())
    } else {
        Err(why())
    }
}

pub fn list(s: &str) -> Vec<u64> {
    if s == "-" {
        return Vec::new();
    }
    s.split(',').map(|x| x.parse().expect("a number")).collect()
}

pub fn narrow(l: &[u64]) -> Vec<u16> {
    l.iter().map(|&x| x as u16).collect()
}

pub fn field(f: &[&str]) -> Field {
    Field { p: f[0].parse().expect("p"), g: list(f[1]), h: list(f[2]) }
}

pub fn number(s: &str) -> u64 {
    s.parse().expect("a number")
}

/// A pattern that no answer has by chance, to see what a call leaves untouched.
pub fn pattern(n: usize) -> Vec<u16> {
    (0..n).map(|i| (i as u16).wrapping_mul(40503) ^ 0xA5A5).collect()
}

fn patterned() -> Record {
    pattern(119).try_into().expect("119 numbers")
}

/// Seven rows as a record.
fn record(rows: &[&str]) -> Record {
    let mut r = [0; 119];
    for (i, row) in rows.iter().enumerate() {
        for (j, x) in list(row).iter().enumerate() {
            r[17 * i + j] = *x as u16;
        }
    }
    r
}

/// p;G;H;refusal
fn opening_case(line: &str) -> Verdict {
    let f: Vec<&str> = line.split(';').collect();
    let x = field(&f);
    let no = x.refusal();
    ensure(u64::from(no) == number(f[3]), || format!("{} for {}", no, f[3]))?;
    // The order is refused alike, and writes only where the field is accepted.
    let mut rows = patterned();
    ensure(x.order(&mut rows) == no && (no == 0) == (rows != patterned()), || "the order refuses otherwise or writes".into())
}

/// p;G;H;k;r;w
fn series_case(line: &str) -> Verdict {
    let f: Vec<&str> = line.split(';').collect();
    let mut x = field(&f);
    let k = number(f[3]) as usize;
    let (mut r, mut w) = (pattern(k), pattern(k));
    let no = x.series(&mut r, &mut w);
    ensure(no == 0, || format!("refused {}", no))?;
    ensure(r == narrow(&list(f[4])) && w == narrow(&list(f[5])), || "other coefficients".into())?;
    // A refusal leaves both slices as they were.
    let (mut r, mut w) = (pattern(k + 1), pattern(k));
    let no = x.series(&mut r, &mut w);
    ensure(no == 14 && r == pattern(k + 1) && w == pattern(k), || "unequal lengths are not refused 14 with nothing written".into())?;
    x.p += 1;
    let no = x.series(&mut r[..k], &mut w);
    ensure((no == 1 || no == 2) && r == pattern(k + 1) && w == pattern(k), || "p + 1 is not refused with nothing written".into())
}

/// p;G;H;length of r;length of w;refusal
fn series_refused_case(line: &str) -> Verdict {
    let f: Vec<&str> = line.split(';').collect();
    let (n, m) = (number(f[3]) as usize, number(f[4]) as usize);
    let (mut r, mut w) = (pattern(n), pattern(m));
    let no = field(&f).series(&mut r, &mut w);
    ensure(u64::from(no) == number(f[5]), || format!("{} for {}", no, f[5]))?;
    ensure(r == pattern(n) && w == pattern(m), || "a refusal writes".into())
}

/// p;G;H;refusal, or p;G;H;0;rows of the order
fn order_case(line: &str) -> Verdict {
    let f: Vec<&str> = line.split(';').collect();
    let x = field(&f);
    let mut rows = patterned();
    let no = x.order(&mut rows);
    ensure(u64::from(no) == number(f[3]), || format!("{} for {}", no, f[3]))?;
    let right = if no == 0 { record(&f[4..11]) } else { patterned() };
    ensure(rows == right, || "other rows".into())?;
    ensure(x.check(&rows) == no, || "the check says otherwise".into())
}

/// p;G;H;refusal or 0;119 numbers
fn basis_case(line: &str) -> Verdict {
    let f: Vec<&str> = line.split(';').collect();
    let x = field(&f);
    let rows: Vec<u64> = f[4].split(' ').map(number).collect();
    let rows: Record = narrow(&rows).try_into().map_err(|_| "not 119 numbers")?;
    let no = x.check(&rows);
    ensure(u64::from(no) == number(f[3]), || format!("{} for {}", no, f[3]))?;
    // The other functions that take a record refuse it alike, and write nothing.
    let mut to = rows;
    let (n, d) = x.step(&mut to);
    ensure(n == no && (n == 0 || (to == rows && d == 0)), || "the step refuses otherwise or writes".into())?;
    let mut to = rows;
    let told = x.walk(0, &mut to);
    ensure(told == (if no == 0 { 10 } else { no }, 0, 0) && to == rows, || format!("a walk with budget 0 tells {:?}", told))
}

/// p;G;H;start rows;refusal;degree;end rows
fn step_case(line: &str) -> Verdict {
    let f: Vec<&str> = line.split(';').collect();
    let mut rows = record(&f[3..10]);
    let told = field(&f).step(&mut rows);
    let right = (number(f[10]) as u32, number(f[11]));
    ensure(told == right, || format!("{:?} for {:?}", told, right))?;
    ensure(rows == record(&f[12..19]), || "another basis".into())
}

/// A walk from a record, in one piece and in two, and step by step where it is short.
fn walk_from(x: &Field, start: &Record, budget: u64, right: (u32, u64, u64), end: &Record) -> Verdict {
    let mut rows = *start;
    let told = x.walk(budget, &mut rows);
    ensure(told == right, || format!("{:?} for {:?}", told, right))?;
    ensure(rows == *end, || "another last basis".into())?;
    if budget > 1 && right.1 > 1 {
        let mut rows = *start;
        let first = x.walk(right.1 / 2, &mut rows);
        let second = x.walk(budget - first.1, &mut rows);
        ensure(first.0 == 10 && (second.0, first.1 + second.1, first.2 + second.2) == right && rows == *end, || "taken up again it differs".into())?;
    }
    if right.1 <= 50 {
        let (mut rows, mut sum) = (*start, 0);
        for _ in 0..right.1 {
            let (n, d) = x.step(&mut rows);
            ensure(n == 0, || format!("a step is refused {}", n))?;
            sum += d;
        }
        ensure(sum == right.2 && rows == *end, || "step by step it differs".into())?;
    }
    // 14 comes after 1 to 8, and before the others.
    let first = if (1..=8).contains(&right.0) { right.0 } else { 14 };
    let mut rows = *start;
    let told = x.walk(1000001, &mut rows);
    ensure(told == (first, 0, 0) && rows == *start, || format!("a budget of 1,000,001 is not refused {} with nothing written", first))
}

/// p;G;H;B;refusal;steps;sum;end rows, from the order
fn walk_case(line: &str) -> Verdict {
    let f: Vec<&str> = line.split(';').collect();
    let x = field(&f);
    let budget = number(f[3]);
    let right = (number(f[4]) as u32, number(f[5]), number(f[6]));
    let told = x.from_order(budget);
    let known = if right.0 == 0 { (0, right.1, right.2 / 2) } else { (right.0, 0, 0) };
    ensure(told == known, || format!("{:?} for {:?}", told, known))?;
    let told = x.from_order(1000001);
    let known = (if right.0 == 0 || right.0 == 10 { 14 } else { right.0 }, 0, 0);
    ensure(told == known, || "a budget of 1,000,001 is not refused 14".into())?;
    let mut start = patterned();
    let no = x.order(&mut start);
    if no != 0 {
        return ensure(no == right.0 && start == patterned(), || "a refused order writes, or refuses otherwise".into());
    }
    walk_from(&x, &start, budget, right, &record(&f[7..14]))
}

/// p;G;H;start rows;B;refusal;steps;sum;end rows
fn walk_from_case(line: &str) -> Verdict {
    let f: Vec<&str> = line.split(';').collect();
    let right = (number(f[11]) as u32, number(f[12]), number(f[13]));
    walk_from(&field(&f), &record(&f[3..10]), number(f[10]), right, &record(&f[14..21]))
}

/// A walk from the order with no limit: taken up again wherever its budget is spent.
fn whole_walk(x: &Field) -> (u32, u64, u64) {
    let (mut rows, mut steps, mut sum) = ([0; 119], 0, 0);
    let mut no = x.order(&mut rows);
    while no == 0 || no == 10 {
        let (n, s, d) = x.walk(1000000, &mut rows);
        steps += s;
        sum += d;
        if n == 0 {
            return (0, steps, sum / 2);
        }
        no = n;
    }
    (no, 0, 0)
}

/// The example rows of the papers: p;G;H;period;regulator.
fn period_case(line: &str) -> Verdict {
    let f: Vec<&str> = line.split(';').collect();
    let right = (0, number(f[3]), number(f[4]));
    let x = field(&f);
    let told = if right.1 > 1000000 { whole_walk(&x) } else { x.from_order(1000000) };
    ensure(told == right, || format!("{:?} for {:?}", told, right))
}

/// Counts cases, and prints the line of a file.
pub struct Tally {
    pub cases: usize,
    pub bad: usize,
    first: String,
}

impl Tally {
    pub fn new() -> Self {
        Tally { cases: 0, bad: 0, first: String::new() }
    }
    pub fn count(&mut self, place: impl FnOnce() -> String, v: Verdict) {
        self.cases += 1;
        if let Err(why) = v {
            self.bad += 1;
            if self.first.is_empty() {
                self.first = format!(", first at {}: {}", place(), why);
            }
        }
    }
    pub fn done(self, path: &str) -> (usize, usize) {
        println!("{}: {} cases, {} failures{}", path, self.cases, self.bad, self.first);
        (self.cases - self.bad, self.bad)
    }
}

fn lines(path: &str, case: fn(&str) -> Verdict) -> (usize, usize) {
    let text = fs::read_to_string(path).expect("a readable file");
    let mut t = Tally::new();
    for (i, line) in text.lines().enumerate() {
        if !line.starts_with('#') && !line.is_empty() {
            t.count(|| format!("line {}", i + 1), case(line));
        }
    }
    t.done(path)
}

/// The files of a folder, in the order of their names.
pub fn names(dir: &str) -> Vec<String> {
    let entries = fs::read_dir(dir).expect("a folder");
    let mut names: Vec<String> = entries.map(|e| e.unwrap().file_name().into_string().unwrap()).collect();
    names.sort();
    names
}

/// Inputs and outputs of the lister, also those of request E1.
fn of_lister(kind: &str) -> bool {
    kind.strip_prefix("e1-").unwrap_or(kind).starts_with("lister")
}

/// What is run of a file, by its kind; nothing for an output that stands beside its input.
fn job(path: String, kind: &str) -> Option<Job> {
    let case: fn(&str) -> Verdict = match kind {
        "openings.txt" => opening_case,
        "series.txt" => series_case,
        "series-refused.txt" => series_refused_case,
        "orders.txt" => order_case,
        "bases.txt" => basis_case,
        "steps.txt" => step_case,
        "walks.txt" => walk_case,
        "walks-from.txt" => walk_from_case,
        "units.txt" => units::unit_case,
        "unit-calls.txt" => units::call_case,
        "unit-lengths.txt" => units::lengths_case,
        "unit-scaled-calls.txt" => conventions::call_case,
        "rescales.txt" => conventions::rescale_case,
        "e6-convention2.txt" => conventions::convention_case,
        "periods.txt" => period_case,
        "pairs.txt" => pairs::pair_case,
        "e3-transfer.txt" => pairs::transfer_case,
        "books.txt" | "e1e3-books.txt" => return Some(Box::new(move || books::file(&path))),
        "e2-sheet.txt" => return Some(Box::new(move || sheets::file(&path))),
        k if of_lister(k) && k.ends_with(".in") => return Some(Box::new(move || lister::file(&path))),
        k if of_lister(k) && k.ends_with(".out") => return None,
        _ => {
            println!("{}: not known, skipped", path);
            return None;
        }
    };
    Some(Box::new(move || lines(&path, case)))
}

/// A job for every file of a folder whose kind is known, the largest first.
pub fn folder(dir: &str) -> Vec<Job> {
    let mut paths: Vec<(u64, String, String)> = Vec::new();
    for name in names(dir) {
        let path = format!("{}/{}", dir, name);
        let size = fs::metadata(&path).map_or(0, |m| m.len());
        let kind = name.splitn(2, '-').nth(1).unwrap_or("").to_string();
        paths.push((size, path, kind));
    }
    paths.sort_by_key(|p| std::cmp::Reverse(p.0));
    paths.into_iter().filter_map(|(_, path, kind)| job(path, &kind)).collect()
}
