// Two pairs of one field: vectors, and random pairs against an independent implementation that makes lists monic and finds the factors
// of the rows by trial.
use crate::api::{Field, Record};
use crate::plain::{inverse, padded_field, refusal, unpad, Numbers, PRIMES};
use crate::vectors::{ensure, field, list, number, pattern, Tally, Verdict};

fn times(p: u64, k: u64, l: &[u64]) -> Vec<u64> {
    l.iter().map(|x| k * x % p).collect()
}

/// The leading coefficient; there may be zeros behind it.
fn top(l: &[u64]) -> u64 {
    *unpad(l).last().expect("a coefficient")
}

fn monic(p: u64, l: &[u64]) -> Vec<u64> {
    times(p, inverse(p, top(l)), &unpad(l))
}

/// In which order two accepted pairs agree after all lists are made monic: not exchanged, exchanged, or in none.
pub fn order_of(x: &Field, y: &Field) -> Option<bool> {
    let (g, h, g2, h2) = (monic(x.p, &x.g), monic(x.p, &x.h), monic(x.p, &y.g), monic(x.p, &y.h));
    match ((&g, &h) == (&g2, &h2), (&g, &h) == (&h2, &g2)) {
        (true, _) => Some(false),
        (_, true) => Some(true),
        _ => None,
    }
}

/// The factors of B and C by the leading coefficients: x³g′h′² = gh² and yh = x²h′.
fn factors(x: &Field, y: &Field, swapped: bool) -> (u64, u64) {
    let p = x.p;
    let (g, h) = if swapped { (top(&x.h), top(&x.g)) } else { (top(&x.g), top(&x.h)) };
    let (g2, h2) = (top(&y.g), top(&y.h));
    let cube = |k: u64| k * k % p * k % p;
    let b = (1..p).find(|&k| cube(k) * (h2 * h2 % p * g2 % p) % p == h * h % p * g % p).expect("a cube root");
    (b, b * b % p * h2 % p * inverse(p, h) % p)
}

/// An element of three rows of c numbers, carried over; `sign` is 1 or p − 1.
fn carried(x: &Field, y: &Field, swapped: bool, sign: u64, rows: &[u16]) -> Vec<u16> {
    let c = rows.len() / 3;
    let (b, d) = factors(x, y, swapped);
    let parts: Vec<&[u16]> = if swapped { vec![&rows[..c], &rows[2 * c..], &rows[c..2 * c]] } else { rows.chunks(c).collect() };
    let row = |k: u64, l: &[u16]| -> Vec<u16> { l.iter().map(|&v| (k * u64::from(v) % x.p) as u16).collect() };
    [row(sign, parts[0]), row(sign * b % x.p, parts[1]), row(sign * d % x.p, parts[2])].concat()
}

fn carried_record(x: &Field, y: &Field, swapped: bool, r: &Record) -> Vec<u16> {
    let sign = if swapped { x.p - 1 } else { 1 };
    [carried(x, y, swapped, 1, &r[..51]), carried(x, y, swapped, sign, &r[51..102]), r[102..].to_vec()].concat()
}

/// The unit of each pair by its own walk, and carried over from either to the other.
fn units_agree(x: &Field, y: &Field, budget: u64, c: usize) -> Result<(u32, Vec<u16>, Vec<u16>), String> {
    let (mut a, mut b, mut s) = (pattern(6 * c), pattern(6 * c), pattern(6 * c));
    let (told, other) = (x.unit(budget, &mut a, &mut s), y.unit(budget, &mut b, &mut s));
    ensure(told == other, || format!("the units tell {:?} and {:?}", told, other))?;
    if told.0 == 0 {
        let mut to = a.clone();
        ensure(x.transfer(&y.g, &y.h, &mut to) == 0 && to == b, || "carried over it is not the other unit".into())?;
        ensure(y.transfer(&x.g, &x.h, &mut to) == 0 && to == a, || "carried back it is not the same unit".into())?;
    }
    Ok((told.0, a, b))
}

/// p;G;H;E0;E1;E2;G2;H2;E0;E1;E2
pub fn transfer_case(line: &str) -> Verdict {
    let f: Vec<&str> = line.split(';').collect();
    let (x, y) = (field(&f), Field { p: number(f[0]), g: list(f[6]), h: list(f[7]) });
    ensure(x.one_field(&y.g, &y.h) == (0, 1), || "not of one field".into())?;
    let c = list(f[3]).len();
    let (no, a, b) = units_agree(&x, &y, 1000000, c)?;
    ensure(no == 0, || format!("refused {}", no))?;
    let row = |l: &str| -> Vec<u16> { list(l).iter().map(|&v| v as u16).chain(std::iter::repeat(0)).take(c).collect() };
    let rows = |at: usize| [row(f[at]), row(f[at + 1]), row(f[at + 2])].concat();
    ensure(a[..3 * c] == rows(3) && b[..3 * c] == rows(8), || "other rows".into())
}

/// p;G;H;G2;H2;length of the rows;refusal of carrying over;refusal of comparing;1 if of one field
pub fn pair_case(line: &str) -> Verdict {
    let f: Vec<&str> = line.split(';').collect();
    let (x, g, h) = (field(&f), list(f[3]), list(f[4]));
    let told = x.one_field(&g, &h);
    ensure(told == (number(f[7]) as u32, number(f[8])), || format!("comparing tells {:?}", told))?;
    let before = pattern(number(f[5]) as usize);
    let mut rows = before.clone();
    let no = x.transfer(&g, &h, &mut rows);
    ensure(u64::from(no) == number(f[6]), || format!("{} for {}", no, f[6]))?;
    ensure(no == 0 || rows == before, || "a refusal writes".into())
}

pub fn some_field(n: &mut Numbers) -> Field {
    loop {
        let p = PRIMES[n.below(12) as usize];
        let (dg, dh) = [(1, 1), (3, 0), (0, 3), (2, 2), (4, 1), (1, 4), (5, 2), (3, 3), (6, 0)][n.below(9) as usize];
        let mut some = |d: u64| -> Vec<u64> { (0..d).map(|_| n.below(p)).chain([0]).collect() };
        let (mut g, mut h) = (some(dg), some(dh));
        for l in [&mut g, &mut h] {
            *l.last_mut().expect("a coefficient") = 1 + n.below(p - 1);
        }
        if refusal(p, &g, &h) == 0 {
            return Field { p, g, h };
        }
    }
}

/// A pair that is mostly of one field with x: constants, exchanged or not, and sometimes a coefficient changed.
pub fn some_other(n: &mut Numbers, x: &Field) -> Field {
    let (a, b) = (1 + n.below(x.p - 1), 1 + n.below(x.p - 1));
    let (mut g, mut h) = (times(x.p, a, &x.g), times(x.p, b, &x.h));
    if n.below(4) == 0 {
        let l = if n.below(2) == 0 { &mut g } else { &mut h };
        let at = n.below(l.len() as u64) as usize;
        l[at] = n.below(x.p + 1);
    }
    if n.below(2) == 0 {
        std::mem::swap(&mut g, &mut h);
    }
    Field { p: x.p, g, h }
}

/// The two chains, record by record, as far as the first closes and at most 8 steps.
fn chains_agree(x: &Field, y: &Field, swapped: bool) -> Verdict {
    let (mut a, mut b): (Record, Record) = ([0; 119], [0; 119]);
    let mut told = ((x.order(&mut a), 0), (y.order(&mut b), 0));
    for i in 0..9 {
        ensure(told.0 == told.1, || format!("step {} tells {:?}", i, told))?;
        ensure(carried_record(x, y, swapped, &a) == b, || format!("the records differ after {} steps", i))?;
        told = (x.step(&mut a), y.step(&mut b));
    }
    Ok(())
}

fn agree(n: &mut Numbers, x: &Field, y: &Field) -> Verdict {
    let no = refusal(y.p, &y.g, &y.h);
    let order = if no == 0 { order_of(x, y) } else { None };
    let told = x.one_field(&y.g, &y.h);
    ensure(told == (no, u64::from(order.is_some())), || format!("comparing tells {:?}", told))?;
    let Some(swapped) = order else {
        let (before, right) = (pattern(30), if no == 0 { 14 } else { no });
        let mut rows = before.clone();
        let told = x.transfer(&y.g, &y.h, &mut rows);
        return ensure(told == right && rows == before, || format!("carrying over tells {} for {}, or writes", told, right));
    };
    for budget in [n.below(5), n.below(60), 300] {
        let told = (x.from_order(budget), y.from_order(budget));
        ensure(told.0 == told.1, || format!("with budget {} the walks tell {:?}", budget, told))?;
    }
    units_agree(x, y, 300, 1 + n.below(64) as usize)?;
    chains_agree(x, y, swapped)
}

/// Random fields with a second pair each, zeros behind some of the lists.
pub fn random(seed: u64, count: usize) -> (usize, usize) {
    let mut n = Numbers::new(seed);
    let mut t = Tally::new();
    for _ in 0..count {
        let x = some_field(&mut n);
        let y = some_other(&mut n, &x);
        let (x, y) = (padded_field(&mut n, &x), padded_field(&mut n, &y));
        t.count(|| format!("p {} G {:?} H {:?} G2 {:?} H2 {:?}", x.p, x.g, x.h, y.g, y.h), agree(&mut n, &x, &y));
    }
    t.done("pairs of one field, random")
}
