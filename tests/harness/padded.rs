// Lists with zeros above their degree: every call about a field tells and writes what it does for the lists without them.
use crate::api::{sheet, Field, Record, Said, WalkRecord, OPEN};
use crate::conventions::some_convention;
use crate::pairs::{some_field, some_other};
use crate::plain::{overlong, padded_field, refusal, some_input, unpad, Numbers};
use crate::shelves::lists_of;
use crate::vectors::{ensure, pattern, Tally, Verdict};

/// What a call tells: its numbers, the refusal first, and its slices before and after, one behind the other.
#[derive(PartialEq)]
struct Told {
    call: &'static str,
    numbers: Vec<u64>,
    before: Vec<u64>,
    after: Vec<u64>,
}

impl Told {
    /// The refusal of a field; 0 where it is accepted, whatever else is refused.
    fn of_field(&self) -> u64 {
        if self.numbers[0] > 8 {
            0
        } else {
            self.numbers[0]
        }
    }

    fn tells_only_a_number(&self) -> bool {
        self.numbers[1..].iter().all(|&v| v == 0) && self.before == self.after
    }
}

/// A call on a copy of a slice.
fn tried<T: Copy + Into<u64>>(call: &'static str, before: &[T], f: impl FnOnce(&mut [T]) -> Vec<u64>) -> Told {
    let wide = |l: &[T]| l.iter().map(|&v| v.into()).collect();
    let mut after = before.to_vec();
    let numbers = f(&mut after);
    Told { call, numbers, before: wide(before), after: wide(&after) }
}

fn record(l: &mut [u16]) -> &mut Record {
    l.try_into().expect("119 numbers")
}

/// What the calls take beside their lists: a basis, a budget, lengths for r and w, six rows with a period, two conventions, room for a body.
struct Given {
    rows: Vec<u16>,
    budget: u64,
    r: usize,
    w: usize,
    unit: Vec<u16>,
    period: u64,
    from: u32,
    to: u32,
    room: usize,
}

/// A sheet of one record of this field, with these rows for its basis: state, steps and sum; the rows are those of the record then.
fn sheeted(x: &Field, budget: u64, rows: &mut [u16]) -> Vec<u64> {
    let mut r = WalkRecord { basis: *record(rows), state: OPEN, ..WalkRecord::start(x.p, &x.g, &x.h) };
    assert_eq!(sheet(std::slice::from_mut(&mut r), budget), 0);
    rows.copy_from_slice(&r.basis);
    vec![u64::from(r.state), r.steps, r.sum]
}

/// Mostly what belongs to the field, where it is accepted.
fn given(n: &mut Numbers, x: &Field) -> Given {
    let (budget, k, c) = (n.below(100), n.below(40) as usize, n.below(48) as usize);
    let (mut rows, mut unit) = (pattern(119), pattern(6 * c));
    x.order(record(&mut rows));
    x.walk(n.below(4), record(&mut rows));
    if n.below(8) == 0 {
        rows[n.below(119) as usize] ^= 1;
    }
    let (_, period, _) = x.unit(300, &mut unit, &mut pattern(6 * c));
    if n.below(8) == 0 {
        unit.push(0);
    }
    let (from, to) = (some_convention(n), some_convention(n));
    Given { rows, budget, r: k, w: k + usize::from(n.below(8) == 0), unit, period, from, to, room: n.below(500) as usize }
}

/// Every call that takes the lists of a field; y is the second pair of those that take two.
fn told(x: &Field, y: &Field, t: &Given) -> Vec<Told> {
    let one = |no: u32| vec![u64::from(no)];
    let two = |(no, a): (u32, u64)| vec![u64::from(no), a];
    let three = |(no, a, b): (u32, u64, u64)| vec![u64::from(no), a, b];
    let five = |s: Said| vec![s.number, s.reason, s.entry, s.other, s.result];
    let (nothing, room, c, lists) = ([0u16; 0], vec![0x5Au8; t.room], t.unit.len(), lists_of(&t.unit));
    vec![
        tried("refusal", &nothing, |_| one(x.refusal())),
        tried("series", &pattern(t.r + t.w), |l| {
            let (r, w) = l.split_at_mut(t.r);
            one(x.series(r, w))
        }),
        tried("order", &pattern(119), |l| one(x.order(record(l)))),
        tried("check", &t.rows, |l| one(x.check(record(l)))),
        tried("step", &t.rows, |l| two(x.step(record(l)))),
        tried("walk", &t.rows, |l| three(x.walk(t.budget, record(l)))),
        tried("sheet", &t.rows, |l| sheeted(x, t.budget % 16, l)),
        tried("from_order", &nothing, |_| three(x.from_order(t.budget))),
        tried("unit", &pattern(2 * c), |l| {
            let (rows, scratch) = l.split_at_mut(c);
            three(x.unit(t.budget, rows, scratch))
        }),
        tried("unit_scaled", &pattern(2 * c), |l| {
            let (rows, scratch) = l.split_at_mut(c);
            three(x.unit_scaled(t.budget, t.to, rows, scratch))
        }),
        tried("rescale", &t.unit, |l| one(x.rescale(t.from, t.to, l))),
        tried("one_field", &nothing, |_| two(x.one_field(&y.g, &y.h))),
        tried("transfer", &t.unit, |l| one(x.transfer(&y.g, &y.h, l))),
        tried("write", &room, |l| five(x.write(t.period, &lists, l))),
        tried("write_rows", &room, |l| five(x.write_rows(t.period, &t.unit, l))),
    ]
}

/// The calls on two pairs tell what they tell on the pairs as they are read, and refuse them by the rule with nothing written.
fn agree(x: &Field, y: &Field, t: &Given) -> Verdict {
    let bare = |f: &Field| Field { p: f.p, g: unpad(&f.g), h: unpad(&f.h) };
    let (first, second) = (refusal(x.p, &x.g, &x.h), refusal(y.p, &y.g, &y.h));
    for (a, b) in told(x, y, t).iter().zip(&told(&bare(x), &bare(y), t)) {
        ensure(a == b, || format!("{} tells {:?} for {:?}, or writes otherwise", a.call, a.numbers, b.numbers))?;
        let of_two = matches!(a.call, "one_field" | "transfer");
        let right = u64::from(if of_two && first == 0 { second } else { first });
        ensure(a.of_field() == right, || format!("{} refuses {} for {}", a.call, a.numbers[0], right))?;
        ensure(right == 0 || a.tells_only_a_number(), || format!("{} refuses {} and tells or writes more", a.call, right))?;
    }
    Ok(())
}

/// An accepted field with another pair, mostly of the same field; or any input and itself.
fn some_pairs(n: &mut Numbers) -> (Field, Field) {
    if n.below(3) > 0 {
        let x = some_field(n);
        let y = some_other(n, &x);
        return (x, y);
    }
    let x = some_input(n);
    let y = Field { p: x.p, g: x.g.clone(), h: x.h.clone() };
    (x, y)
}

/// Random pairs with zeros behind their lists; then one of the lists has more than 32 entries.
pub fn random(seed: u64, count: usize) -> (usize, usize) {
    let mut n = Numbers::new(seed);
    let mut t = Tally::new();
    let place = |x: &Field, y: &Field| format!("p {} G {:?} H {:?} G2 {:?} H2 {:?}", x.p, x.g, x.h, y.g, y.h);
    for _ in 0..count {
        let (x, y) = some_pairs(&mut n);
        let beside = given(&mut n, &x);
        let (mut x, mut y) = (padded_field(&mut n, &x), padded_field(&mut n, &y));
        t.count(|| place(&x, &y), agree(&x, &y, &beside));
        let lists = [&mut x.g, &mut x.h, &mut y.g, &mut y.h];
        let one = lists.into_iter().nth(n.below(4) as usize).expect("a list");
        *one = overlong(&mut n, one);
        t.count(|| place(&x, &y), agree(&x, &y, &beside));
    }
    t.done("padded lists, random")
}
