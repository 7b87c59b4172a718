// Sheets of walk records: vectors, and random sheets against the definition, written again over the calls that take one field.
use crate::api::{sheet, Field, WalkRecord, CLOSED, OPEN};
use crate::pairs::some_field;
use crate::plain::{padded_field, some_input, Numbers};
use crate::vectors::{ensure, field, narrow, number, Tally, Verdict};
use std::fs;

const RECORDS: usize = 64;
pub const STEPS: u64 = 1_000_000_000;
pub const BUDGET: u64 = 1_000_000;

/// States that are unknown; some are open or closed when cut to 16 bits or to 8.
pub const UNKNOWN: [u32; 13] = [10, 11, 12, 13, 15, 16, 99, 101, 256, 356, 65536, 65636, u32::MAX];

/// States that are passed over.
pub const DONE: [u32; 11] = [1, 2, 3, 4, 5, 6, 7, 8, 9, 14, CLOSED];

/// Counts of entries that are too many; some are few when cut to 32 bits, or when multiplied by the bytes of an entry.
pub const TOO_MANY: [usize; 8] = [33, 34, 64, 1 << 32, (1 << 32) + 4, 1 << 61, (1 << 61) + 4, usize::MAX];

// ---- the definition

/// A list of a record. With a count over 32 it stands for one that is too long, whatever it would hold.
fn list_of(entries: &[u64; 32], n: usize) -> Vec<u64> {
    entries.get(..n).map_or(vec![0; 33], |l| l.to_vec())
}

fn field_of(r: &WalkRecord) -> Field {
    Field { p: r.p, g: list_of(&r.g, r.ng), h: list_of(&r.h, r.nh) }
}

pub fn marked(r: &WalkRecord, state: u32) -> WalkRecord {
    WalkRecord { state, ..*r }
}

/// One record, walked on.
pub fn advanced(r: &WalkRecord, budget: u64) -> WalkRecord {
    if DONE.contains(&r.state) {
        return *r;
    }
    let x = field_of(r);
    let no = x.refusal();
    if no != 0 {
        return marked(r, no);
    }
    if r.state != OPEN || r.steps > STEPS || r.sum > 16 * r.steps {
        return marked(r, 14);
    }
    let mut basis = r.basis;
    let (no, steps, sum) = x.walk(budget, &mut basis);
    let state = match no {
        0 => CLOSED,
        10 => OPEN,
        _ => return marked(r, no),
    };
    WalkRecord { basis, steps: r.steps + steps, sum: r.sum + sum, state, ..*r }
}

/// The answer to a sheet, and the records afterwards.
pub fn answer(before: &[WalkRecord], budget: u64) -> (u32, Vec<WalkRecord>) {
    if before.len() > RECORDS || budget > BUDGET {
        return (14, before.to_vec());
    }
    (0, before.iter().map(|r| advanced(r, budget)).collect())
}

fn difference(r: &WalkRecord, right: &WalkRecord) -> String {
    let told = |r: &WalkRecord| format!("state {} steps {} sum {}", r.state, r.steps, r.sum);
    let field = |r: &WalkRecord| (r.p, r.g, r.ng, r.h, r.nh);
    let (rows, lists) = (r.basis != right.basis, field(r) != field(right));
    format!("{} for {}{}{}", told(r), told(right), if rows { ", another basis" } else { "" }, if lists { ", another field" } else { "" })
}

pub fn same(what: &str, records: &[WalkRecord], right: &[WalkRecord]) -> Verdict {
    for (i, (r, right)) in records.iter().zip(right).enumerate() {
        ensure(r == right, || format!("{}, record {}: {}", what, i, difference(r, right)))?;
    }
    ensure(records.len() == right.len(), || format!("{}: {} records", what, records.len()))
}

/// A call on a copy: what it tells, and every member of every record.
pub fn leaves(before: &[WalkRecord], budget: u64, (no, after): (u32, &[WalkRecord])) -> Verdict {
    let what = format!("a sheet of {} with budget {}", before.len(), budget);
    let mut records = before.to_vec();
    let told = sheet(&mut records, budget);
    ensure(told == no, || format!("{} tells {} for {}", what, told, no))?;
    same(&what, &records, after)
}

pub fn walked(mut records: Vec<WalkRecord>, budget: u64) -> Vec<WalkRecord> {
    assert_eq!(sheet(&mut records, budget), 0);
    records
}

// ---- vectors

/// p;G;H;119 numbers;steps;sum;state, the state in words or a number
fn record_of(line: &str, unknown: u32) -> WalkRecord {
    let f: Vec<&str> = line.split(';').collect();
    let x = field(&f);
    let rows: Vec<u64> = f[3].split(' ').map(number).collect();
    let state = match f[6] {
        "open" => OPEN,
        "closed" => CLOSED,
        "unknown" => unknown,
        n => number(n) as u32,
    };
    let basis = narrow(&rows).try_into().expect("119 numbers");
    WalkRecord { basis, steps: number(f[4]), sum: number(f[5]), state, ..WalkRecord::start(x.p, &x.g, &x.h) }
}

/// sheet B .. records .., the records, the result, the records afterwards
fn block_case(lines: &[&str]) -> Verdict {
    let head: Vec<&str> = lines[0].split(' ').collect();
    let (budget, n) = (number(head[2]), number(head[4]) as usize);
    let part = |mark: &str, unknown: u32| -> Vec<WalkRecord> {
        lines.iter().filter_map(|l| l.strip_prefix(mark)).map(|l| record_of(l, unknown)).collect()
    };
    let result = lines.iter().find_map(|l| l.strip_prefix("result ")).map(number).ok_or("no result")?;
    let codes = if lines.iter().any(|l| l.ends_with(";unknown")) { &UNKNOWN[..] } else { &UNKNOWN[..1] };
    for &unknown in codes {
        let (before, after) = (part("in ", unknown), part("out ", unknown));
        ensure(before.len() == n && after.len() == n, || format!("not {} records", n))?;
        ensure(answer(&before, budget) == (result as u32, after.clone()), || "the definition says otherwise".into())?;
        leaves(&before, budget, (result as u32, &after))?;
    }
    Ok(())
}

pub fn file(path: &str) -> (usize, usize) {
    let text = fs::read_to_string(path).expect("a readable file");
    let lines: Vec<&str> = text.lines().collect();
    let starts: Vec<usize> = (0..lines.len()).filter(|&i| lines[i].starts_with("sheet ")).collect();
    let mut t = Tally::new();
    for (k, &i) in starts.iter().enumerate() {
        let end = starts.get(k + 1).copied().unwrap_or(lines.len());
        t.count(|| format!("line {}", i + 1), block_case(&lines[i..end]));
    }
    t.done(path)
}

// ---- random sheets

/// A fault in a record, or another state. Mostly none.
fn spoil(n: &mut Numbers, r: &mut WalkRecord) {
    let at = n.below(119) as usize;
    match n.below(20) {
        0 => r.state = UNKNOWN[n.below(13) as usize],
        1 => r.state = 1 + n.below(15) as u32,
        2 => r.state = CLOSED,
        3 => r.steps = STEPS + n.below(3),
        4 => r.sum = 16 * r.steps + n.below(2),
        5 => r.basis[at] ^= 1,
        6 => r.basis[at] = n.below(65536) as u16,
        7 => r.ng = TOO_MANY[n.below(8) as usize],
        8 => r.p += 2,
        _ => {}
    }
}

/// A record that is mostly under way on its chain.
fn some_record(n: &mut Numbers) -> WalkRecord {
    let x = if n.below(8) == 0 { some_input(n) } else { some_field(n) };
    let x = padded_field(n, &x);
    let mut r = marked(&WalkRecord::start(x.p, &x.g, &x.h), OPEN);
    let (_, steps, sum) = x.walk(n.below(4), &mut r.basis);
    (r.steps, r.sum) = (steps, sum);
    r.g.iter_mut().skip(r.ng).chain(r.h.iter_mut().skip(r.nh)).for_each(|v| *v = n.below(9));
    spoil(n, &mut r);
    r
}

/// Two sheets with budgets b and c are one with b + c, but for records that pass the most steps between them.
fn together(before: &[WalkRecord], b: u64, c: u64) -> Verdict {
    let first = walked(before.to_vec(), b);
    let (second, both) = (walked(first.clone(), c), walked(before.to_vec(), b + c));
    for ((r, s), t) in first.iter().zip(&second).zip(&both) {
        if r.state == OPEN && r.steps > STEPS {
            same("past the most steps", &[*s], &[marked(r, 14)])?;
            continue;
        }
        ensure(r.state != OPEN || [OPEN, CLOSED].contains(&s.state), || format!("left open, then refused {}", s.state))?;
        same("two sheets and one", &[*s], &[*t])?;
    }
    Ok(())
}

/// Adds to the records that were left open, closed, refused, passed over.
fn tell_apart(before: &[WalkRecord], after: &[WalkRecord], seen: &mut [usize; 4]) {
    for (r, s) in before.iter().zip(after) {
        let kind = match (DONE.contains(&r.state), s.state) {
            (true, _) => 3,
            (_, OPEN) => 0,
            (_, CLOSED) => 1,
            _ => 2,
        };
        seen[kind] += 1;
    }
}

fn some_sheet(n: &mut Numbers, seen: &mut [usize; 4]) -> Verdict {
    let count = if n.below(16) == 0 { 62 + n.below(5) } else { n.below(12) };
    let budget = if n.below(16) == 0 { BUDGET + 1 + n.below(2) } else { n.below(10) };
    let before: Vec<WalkRecord> = (0..count).map(|_| some_record(n)).collect();
    let (no, mut after) = answer(&before, budget);
    leaves(&before, budget, (no, &after))?;
    let reversed: Vec<WalkRecord> = before.iter().rev().copied().collect();
    after.reverse();
    leaves(&reversed, budget, (no, &after))?;
    if no != 0 {
        return Ok(());
    }
    tell_apart(&reversed, &after, seen);
    together(&before, budget, n.below(10))
}

/// Records from the order, sheet after sheet: closed ones hold the period and twice the regulator.
fn until_closed(n: &mut Numbers) -> Verdict {
    let fields: Vec<Field> = (0..8).map(|_| some_field(n)).collect();
    let mut records: Vec<WalkRecord> = fields.iter().map(|x| WalkRecord::start(x.p, &x.g, &x.h)).collect();
    let starts = records.clone();
    for _ in 0..10 {
        records = walked(records, 16);
    }
    for ((x, r), start) in fields.iter().zip(&records).zip(&starts) {
        let (no, period, regulator) = x.from_order(160);
        let told = if r.state == CLOSED { (0, r.steps, r.sum / 2) } else { (10, 0, 0) };
        ensure(told == (no, period, regulator), || format!("p {} G {:?} H {:?}: {:?} for {:?}", x.p, x.g, x.h, told, (no, period, regulator)))?;
        let closed = r.sum % 2 == 0 && r.basis == start.basis;
        ensure(if no == 0 { closed } else { r.state == OPEN && r.steps == 160 }, || format!("ended in state {} after {} steps", r.state, r.steps))?;
    }
    Ok(())
}

/// Random sheets; after some of them walks from the order, until they close.
pub fn random(seed: u64, count: usize) -> (usize, usize) {
    let mut n = Numbers::new(seed);
    let mut t = Tally::new();
    let mut seen = [0; 4];
    for i in 0..count {
        t.count(|| format!("sheet {}", i), some_sheet(&mut n, &mut seen));
        if i % 15 == 0 {
            t.count(|| format!("walks after sheet {}", i), until_closed(&mut n));
        }
    }
    println!("sheets, random: records left open {}, closed {}, refused {}, passed over {}", seen[0], seen[1], seen[2], seen[3]);
    t.done("sheets, random")
}
