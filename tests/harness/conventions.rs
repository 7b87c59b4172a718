// The two conventions by which a unit is scaled, 1 for E0 monic and 2 for norm 1: vectors, worked calls, and random units, their powers and
// damaged rows against an independent arithmetic.
use crate::api::Field;
use crate::elements::{rows_of, Element, Unit};
use crate::pairs::{order_of, some_field, some_other};
use crate::plain::{padded_field, refusal, Numbers};
use crate::units::scratched;
use crate::vectors::{ensure, field, list, narrow, number, pattern, Tally, Verdict};

const CONVENTIONS: [u32; 2] = [1, 2];

/// Numbers that are no convention; some are one when cut to 16 bits or to 8.
const OTHERS: [u32; 7] = [0, 3, 7, 257, 65537, 65538, u32::MAX];

// ---- the unit with a convention

/// What a call tells and leaves: its numbers, rows, scratch.
type Made = ((u32, u64, u64), Vec<u16>, Vec<u16>);

/// A call on slices of two lengths, patterned before; with no convention it is the call that takes none.
fn made(x: &Field, budget: u64, convention: Option<u32>, (n, m): (usize, usize)) -> Made {
    let (mut rows, mut scratch) = (pattern(n), scratched(m));
    let told = match convention {
        None => x.unit(budget, &mut rows, &mut scratch),
        Some(k) => x.unit_scaled(budget, k, &mut rows, &mut scratch),
    };
    (told, rows, scratch)
}

/// What a refused call tells and leaves.
fn untouched(no: u32, (n, m): (usize, usize)) -> Made {
    ((no, 0, 0), pattern(n), scratched(m))
}

fn same(what: &str, (told, rows, scratch): &Made, right: &Made) -> Verdict {
    ensure(*told == right.0, || format!("{}: {:?} for {:?}", what, told, right.0))?;
    ensure(*rows == right.1, || format!("{}: other rows", what))?;
    ensure(*scratch == right.2, || format!("{}: another scratch", what))
}

/// Every convention but two is refused 14 with nothing written, whatever room and budget there are.
fn others_refused(x: &Field, budget: u64, n: usize) -> Verdict {
    for k in OTHERS {
        for (b, l) in [(budget, n), (0, n), (budget, 0)] {
            same(&format!("convention {}", k), &made(x, b, Some(k), (l, l)), &untouched(14, (l, l)))?;
        }
    }
    Ok(())
}

/// Under convention 2 the other refusals come as without one.
fn refused_alike(x: &Field, period: u64, c: usize) -> Verdict {
    let n = 6 * c;
    let (spent, no_room) = ([(period - 1, (n, n)), (0, (0, 0))], [(period, (n - 6, n - 6)), (period, (0, 0))]);
    let out_of_rule = [(period, (n, n + 6)), (period, (n + 1, n + 1)), (1000001, (n, n))];
    for (budget, lengths) in spent.into_iter().chain(no_room).chain(out_of_rule) {
        let plain = made(x, budget, None, lengths);
        ensure(plain.0 .0 != 0, || format!("budget {} and lengths {:?} are not refused", budget, lengths))?;
        same("convention 2, refused", &made(x, budget, Some(2), lengths), &plain)?;
    }
    Ok(())
}

/// The unit of a field by both conventions with c coefficients a row, each way; both units.
fn both_ways(x: &Field, budget: u64, c: usize) -> Result<[Vec<u16>; 2], String> {
    let n = (6 * c, 6 * c);
    let (plain, first, second) = (made(x, budget, None, n), made(x, budget, Some(1), n), made(x, budget, Some(2), n));
    ensure(plain.0 .0 == 0, || format!("refused {}", plain.0 .0))?;
    same("convention 1", &first, &plain)?;
    ensure(second.0 == plain.0 && second.2 == plain.2, || format!("convention 2 tells {:?} for {:?}, or leaves another scratch", second.0, plain.0))?;
    ensure(plain.2.iter().all(|&v| v == 0), || "the scratch is not zero".into())?;
    let rows = [plain.1, second.1];
    for (i, from) in CONVENTIONS.into_iter().enumerate() {
        let u = Unit::of(&rows[i]);
        ensure(u.is_by(x, from), || format!("it is not a unit of positive degree by convention {} with its inverse", from))?;
        for (j, to) in CONVENTIONS.into_iter().enumerate() {
            turned_into(x, from, to, &rows[i], &rows[j])?;
        }
    }
    Ok(rows)
}

// ---- rows turned

/// The answer to a call with these rows, and the rows afterwards.
fn answer(x: &Field, from: u32, to: u32, rows: &[u16]) -> (u32, Vec<u16>) {
    let kept = |no: u32| (no, rows.to_vec());
    let no = refusal(x.p, &x.g, &x.h);
    if no != 0 {
        return kept(no);
    }
    let known = CONVENTIONS.contains(&from) && CONVENTIONS.contains(&to);
    if !known || rows.len() % 6 != 0 || rows.len() > 6 * 4096 || rows.iter().any(|&v| u64::from(v) >= x.p) {
        return kept(14);
    }
    let u = Unit::of(rows);
    if !u.is_by(x, from) {
        return kept(14);
    }
    (0, u.by(x, to).rows(rows.len() / 6))
}

fn tells(x: &Field, from: u32, to: u32, before: &[u16], (no, after): (u32, &[u16])) -> Verdict {
    let mut rows = before.to_vec();
    let told = x.rescale(from, to, &mut rows);
    ensure(told == no, || format!("turning from {} to {} tells {} for {}", from, to, told, no))?;
    ensure(rows == after, || format!("turning from {} to {} {}", from, to, if no == 0 { "gives other rows" } else { "is refused and writes" }))
}

fn turned_into(x: &Field, from: u32, to: u32, before: &[u16], after: &[u16]) -> Verdict {
    tells(x, from, to, before, (0, after))
}

/// Refused 14, whichever convention is wanted, and by the independent arithmetic too.
fn never_turned(x: &Field, from: u32, what: &str, rows: &[u16]) -> Verdict {
    for to in CONVENTIONS {
        ensure(answer(x, from, to, rows).0 == 14, || format!("{}: it can be turned", what))?;
        tells(x, from, to, rows, (14, rows)).map_err(|why| format!("{}: {}", what, why))?;
    }
    Ok(())
}

/// One number changed in each of the six rows: by 1 mod p, or by p where that fits 16 bits.
fn one_number_off(p: u64, c: usize, rows: &[u16]) -> Vec<Vec<u16>> {
    let changed = |at: usize, v: u64| {
        let mut l = rows.to_vec();
        l[at] = v as u16;
        l
    };
    let old = |at: usize| u64::from(rows[at]);
    let mut all = Vec::new();
    for row in 0..6 {
        let places = row * c..(row + 1) * c;
        all.extend([places.start, places.end - 1].map(|at| changed(at, (old(at) + 1) % p)));
        let fits = |v: u64| places.clone().find(|&at| old(at) == v && v + p <= 65535);
        all.extend([0, 1, 2].into_iter().filter_map(fits).map(|at| changed(at, old(at) + p)));
    }
    all
}

/// Rows that are not a unit of positive degree scaled by the convention with its inverse, made of the unit u that is; `other` is the same
/// unit by the other convention.
fn wrong_rows(x: &Field, convention: u32, u: &Unit, other: &Unit) -> Vec<(&'static str, Vec<u16>)> {
    let c = u.length();
    let whole = u.rows(c);
    let mixed = Unit { e: u.e.clone(), f: other.f.clone() };
    let off_by = |f: Element| {
        let v = u.times(x, &Unit { f, ..Unit::one() });
        v.rows(v.length())
    };
    let mut all = vec![
        ("the inverse", u.inverse().by(x, convention).rows(c)),
        ("the inverse as it is", u.inverse().rows(c)),
        ("the constant 1", Unit::one().rows(c)),
        ("the constant 1, one number a row", Unit::one().rows(1)),
        ("twice the unit", u.scaled(x.p, 2).rows(c)),
        ("minus the unit", u.scaled(x.p, x.p - 1).rows(c)),
        ("the unit twice, and no inverse", Unit { e: u.e.clone(), f: u.e.clone() }.rows(c)),
        ("the inverse times 1 + t", off_by([vec![1, 1], vec![], vec![]])),
        ("the inverse times 1 + r", off_by([vec![1], vec![1], vec![]])),
        ("the inverse times 1 + w", off_by([vec![1], vec![], vec![1]])),
        ("rows cut off", u.rows(c - 1)),
        ("a number more", [&whole[..], &[0]].concat()),
        ("a number less", whole[..6 * c - 1].to_vec()),
        ("zeros", vec![0; 6 * c]),
        ("nothing", vec![]),
        ("4,097 numbers a row", u.rows(4097)),
    ];
    if u.e != other.e {
        all.push(("scaled the other way", other.rows(c)));
        all.push(("the inverse scaled the other way", mixed.rows(c)));
    }
    all.extend(one_number_off(x.p, c + 1, &u.rows(c + 1)).into_iter().map(|l| ("one number off", l)));
    all
}

/// All that is refused beside a unit by both conventions.
fn all_refused(x: &Field, [first, second]: [&Unit; 2]) -> Verdict {
    for (convention, u, other) in [(1, first, second), (2, second, first)] {
        for (what, rows) in wrong_rows(x, convention, u, other) {
            never_turned(x, convention, what, &rows)?;
        }
        let rows = u.rows(u.length());
        for k in OTHERS {
            for (from, to) in [(k, convention), (convention, k), (k, k)] {
                tells(x, from, to, &rows, (14, &rows))?;
            }
        }
    }
    Ok(())
}

/// A unit that need not be the smallest, by both conventions and there and back, with some zeros above its rows.
fn there_and_back(x: &Field, u: &Unit) -> Verdict {
    for (from, to) in [(1, 2), (2, 1)] {
        let c = u.length() + 2;
        let (before, after) = (u.by(x, from).rows(c), u.by(x, to).rows(c));
        turned_into(x, from, to, &before, &after)?;
        turned_into(x, to, from, &after, &before)?;
        turned_into(x, from, from, &before, &before)?;
    }
    Ok(())
}

// ---- vectors

/// p;G;H;E0;E1;E2 by convention 1;E0;E1;E2;F0;F1;F2 by convention 2
pub fn convention_case(line: &str) -> Verdict {
    let f: Vec<&str> = line.split(';').collect();
    let x = field(&f);
    let lists: Vec<Vec<u64>> = f[3..12].iter().map(|s| list(s)).collect();
    let least = lists[0].len();
    for c in [least, least + 3] {
        let [first, second] = both_ways(&x, 1000000, c)?;
        ensure(first[..3 * c] == rows_of(&lists[..3], c), || "other rows by convention 1".into())?;
        ensure(second == rows_of(&lists[3..], c), || "other rows by convention 2".into())?;
    }
    let ((_, period, regulator), rows, _) = made(&x, 1000000, Some(2), (6 * least, 6 * least));
    ensure(2 * regulator + 1 == least as u64, || format!("regulator {} for rows of {}", regulator, least))?;
    others_refused(&x, period, 6 * least)?;
    refused_alike(&x, period, least)?;
    let second = Unit::of(&rows);
    let square = second.times(&x, &second);
    all_refused(&x, [&second.by(&x, 1), &second])?;
    there_and_back(&x, &square)?;
    there_and_back(&x, &square.times(&x, &second))
}

/// p;G;H;B;convention;length of rows;length of scratch;refusal;period;regulator;the rows afterwards, - where nothing is written
pub fn call_case(line: &str) -> Verdict {
    let f: Vec<&str> = line.split(';').collect();
    let lengths = (number(f[5]) as usize, number(f[6]) as usize);
    let told = (number(f[7]) as u32, number(f[8]), number(f[9]));
    let right = if told.0 == 0 { (told, narrow(&list(f[10])), vec![0; lengths.1]) } else { untouched(told.0, lengths) };
    same("the call", &made(&field(&f), number(f[3]), Some(number(f[4]) as u32), lengths), &right)
}

/// p;G;H;from;to;the rows;refusal;the rows afterwards, - where nothing is written
pub fn rescale_case(line: &str) -> Verdict {
    let f: Vec<&str> = line.split(';').collect();
    let (x, before, no) = (field(&f), narrow(&list(f[5])), number(f[6]) as u32);
    let (from, to) = (number(f[3]) as u32, number(f[4]) as u32);
    let after = if no == 0 { narrow(&list(f[7])) } else { before.clone() };
    ensure(answer(&x, from, to, &before) == (no, after.clone()), || "the independent arithmetic says otherwise".into())?;
    tells(&x, from, to, &before, (no, &after))
}

// ---- random units

pub fn some_convention(n: &mut Numbers) -> u32 {
    match n.below(21) {
        0 => OTHERS[n.below(7) as usize],
        k => 1 + k as u32 % 2,
    }
}

/// The unit by some convention beside the unit without one.
fn scaled_unit(n: &mut Numbers, x: &Field) -> Verdict {
    let (convention, budget, c) = (some_convention(n), [n.below(5), 300][n.below(2) as usize], n.below(48) as usize);
    let lengths = (6 * c + usize::from(n.below(16) == 0), 6 * c);
    let plain = made(x, budget, None, lengths);
    let right = match (plain.0 .0, CONVENTIONS.contains(&convention)) {
        (1..=8, _) => plain,
        (_, false) => untouched(14, lengths),
        (0, true) => (plain.0, Unit::of(&plain.1).by(x, convention).rows(c), plain.2),
        _ => plain,
    };
    same(&format!("convention {}, budget {}, lengths {:?}", convention, budget, lengths), &made(x, budget, Some(convention), lengths), &right)
}

/// A small power of the unit of a field, if that is short, times a constant that mostly is the one of a convention.
fn some_power(n: &mut Numbers, x: &Field, convention: u32) -> Option<Unit> {
    let (told, rows, _) = made(x, 300, Some(2), (6 * 128, 6 * 128));
    if told.0 != 0 {
        return None;
    }
    let unit = Unit::of(&rows);
    let power = (0..n.below(3)).fold(unit.clone(), |u, _| u.times(x, &unit));
    Some(match n.below(8) {
        0 => power.scaled(x.p, 1 + n.below(x.p - 1)),
        1 => power.inverse().by(x, convention),
        _ => power.by(x, convention),
    })
}

/// Rows with a fault in a number or in the length. Mostly none.
fn damaged(n: &mut Numbers, p: u64, mut rows: Vec<u16>) -> Vec<u16> {
    let at = n.below(rows.len().max(1) as u64) as usize;
    match n.below(16) {
        0 if !rows.is_empty() => rows[at] = n.below(p) as u16,
        1 if !rows.is_empty() => rows[at] = (u64::from(rows[at]) + p) as u16,
        2 => rows.truncate(at),
        3 => rows.push(0),
        _ => {}
    }
    rows
}

/// Rows turned as the independent arithmetic turns them; what is turned can be turned back.
fn turned_alike(n: &mut Numbers, x: &Field, seen: &mut [usize; 2]) -> Verdict {
    let (from, to) = (some_convention(n), some_convention(n));
    let Some(u) = some_power(n, x, if from == 1 { 1 } else { 2 }) else {
        let rows = pattern(30);
        let (no, _) = answer(x, from, to, &rows);
        return tells(x, from, to, &rows, (no, &rows));
    };
    let c = u.length() + n.below(3) as usize;
    let rows = damaged(n, x.p, u.rows(c));
    let (no, after) = answer(x, from, to, &rows);
    seen[usize::from(no != 0)] += 1;
    tells(x, from, to, &rows, (no, &after))?;
    if no == 0 {
        turned_into(x, to, from, &after, &rows)?;
    }
    Ok(())
}

/// Rows of norm 1 carried over to another pair of the field are the other pair's of norm 1.
fn carried_alike(n: &mut Numbers, x: &Field) -> Verdict {
    let y = some_other(n, x);
    if refusal(x.p, &x.g, &x.h) != 0 || refusal(y.p, &y.g, &y.h) != 0 || order_of(x, &y).is_none() {
        return Ok(());
    }
    let lengths = (6 * 64, 6 * 64);
    let (mut first, second) = (made(x, 300, Some(2), lengths), made(&y, 300, Some(2), lengths));
    if first.0 .0 == 0 {
        ensure(x.transfer(&y.g, &y.h, &mut first.1) == 0, || "carrying over is refused".into())?;
    }
    same("carried over", &first, &second)
}

/// Rows of 4,096 coefficients are the longest.
fn longest() -> Verdict {
    let x = Field { p: 5, g: vec![0, 1, 0, 1], h: vec![1] };
    let ([first, second], c) = (both_ways(&x, 2, 5)?, 4096);
    let (first, second) = (Unit::of(&first), Unit::of(&second));
    turned_into(&x, 1, 2, &first.rows(c), &second.rows(c))?;
    turned_into(&x, 2, 1, &second.rows(c), &first.rows(c))?;
    never_turned(&x, 1, "4,097 numbers a row", &first.rows(c + 1))
}

/// Random fields, zeros behind some of the lists and some of them refused.
pub fn random(seed: u64, count: usize) -> (usize, usize) {
    let mut n = Numbers::new(seed);
    let mut t = Tally::new();
    let mut seen = [0; 2];
    t.count(|| "the longest rows".into(), longest());
    for _ in 0..count {
        let x = some_field(&mut n);
        let mut x = padded_field(&mut n, &x);
        if n.below(12) == 0 {
            x.p += 2;
        }
        let verdict = scaled_unit(&mut n, &x).and_then(|_| turned_alike(&mut n, &x, &mut seen)).and_then(|_| carried_alike(&mut n, &x));
        t.count(|| format!("p {} G {:?} H {:?}", x.p, x.g, x.h), verdict);
    }
    println!("conventions, random: units and rows beside them turned {}, refused {}", seen[0], seen[1]);
    t.done("conventions, random")
}
