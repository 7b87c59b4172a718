// An independent implementation of the book, written for obvious correctness, and random books and bodies, damaged ones among them.
use crate::api::{self, Field, Said};
use crate::elements::{norm, six_lists};
use crate::pairs::{order_of, some_field};
use crate::plain::{body_refusal, padded, padded_field, refusal, unpad, Numbers};
use crate::vectors::{ensure, Tally, Verdict};
use std::collections::BTreeMap;

fn u2(s: &[u8], i: usize) -> usize {
    (0..2).map(|k| usize::from(*s.get(i + k).unwrap_or(&0)) << (8 * k)).sum()
}

fn u4(s: &[u8], i: usize) -> usize {
    u2(s, i) + (u2(s, i + 2) << 16)
}

fn words(l: &[u64]) -> Vec<u8> {
    l.iter().flat_map(|&x| [x as u8, (x >> 8) as u8]).collect()
}

fn refused(number: u64) -> Said {
    Said { number, reason: 0, entry: 0, other: 0, result: 0 }
}

fn malformed(reason: u64, entry: usize, other: u64) -> Said {
    Said { number: 13, reason, entry: entry as u64, other, result: 0 }
}

fn passed(result: usize) -> Said {
    Said { result: result as u64, ..refused(0) }
}

/// Period and lists of a body: G, H, E0, E1, E2.
struct Value {
    p: u64,
    period: u64,
    lists: Vec<Vec<u64>>,
}

impl Value {
    fn bytes(&self) -> Vec<u8> {
        let lengths: Vec<u64> = self.lists.iter().map(|l| l.len() as u64).collect();
        let period = [self.period & 0xFFFF, self.period >> 16];
        [words(&[self.p]), words(&lengths), words(&period), words(&self.lists.concat())].concat()
    }

    fn field(&self) -> Field {
        Field { p: self.p, g: self.lists[0].clone(), h: self.lists[1].clone() }
    }
}

fn value(s: &[u8]) -> Option<Value> {
    let lengths: Vec<usize> = (0..5).map(|k| u2(s, 2 + 2 * k)).collect();
    if s.len() != 16 + 2 * lengths.iter().sum::<usize>() {
        return None;
    }
    let mut at = 16;
    let mut lists = Vec::new();
    for n in lengths {
        lists.push((0..n).map(|i| u2(s, at + 2 * i) as u64).collect());
        at += 2 * n;
    }
    Some(Value { p: u2(s, 0) as u64, period: u4(s, 12) as u64, lists })
}

/// A body as an entry: its value, or what is said.
fn judged(s: &[u8], i: usize) -> Result<Value, Said> {
    let v = value(s).ok_or(malformed(3, i, 0))?;
    let fits = |l: &Vec<u64>| !l.is_empty() && l.len() <= 4096 && l.iter().all(|&x| x < v.p) && l.last() != Some(&0);
    let e0 = &v.lists[2];
    let good = v.lists[2..].iter().all(fits) && e0.len() % 2 == 1 && e0.len() >= 3 && e0.last() == Some(&1);
    if !good || v.period < 1 || v.period > 1000000 {
        return Err(malformed(3, i, 0));
    }
    match body_refusal(v.p, &v.lists[0], &v.lists[1]) {
        0 => Ok(v),
        n => Err(malformed(4, i, u64::from(n))),
    }
}

fn one_field(a: &Value, b: &Value) -> bool {
    a.p == b.p && order_of(&a.field(), &b.field()).is_some()
}

/// The bodies of a book with their places, or what is said of it.
fn checked(s: &[u8]) -> Result<Vec<(usize, usize, Value)>, Said> {
    if s.len() < 6 || s.len() > 65536 || &s[..4] != b"PCF1" {
        return Err(malformed(1, 0, 0));
    }
    let n = u2(s, 4);
    let places: Vec<(usize, usize)> = (0..n).map(|i| (u4(s, 6 + 8 * i), u4(s, 10 + 8 * i))).collect();
    let mut at = 6 + 8 * n;
    for (start, size) in &places {
        if *start != at {
            return Err(malformed(2, 0, 0));
        }
        at += size;
    }
    if at != s.len() {
        return Err(malformed(2, 0, 0));
    }
    let mut all: Vec<(usize, usize, Value)> = Vec::new();
    for (i, (start, size)) in places.into_iter().enumerate() {
        let v = judged(&s[start..start + size], i)?;
        if let Some(j) = all.iter().position(|(_, _, w)| one_field(&v, w)) {
            return Err(malformed(5, i, j as u64));
        }
        all.push((start, size, v));
    }
    Ok(all)
}

fn bound(bodies: &[Vec<u8>]) -> Vec<u8> {
    let mut at = 6 + 8 * bodies.len();
    let mut all = [b"PCF1".to_vec(), words(&[bodies.len() as u64])].concat();
    for b in bodies {
        all.extend([at as u32, b.len() as u32].iter().flat_map(|x| x.to_le_bytes()));
        at += b.len();
    }
    [all, bodies.concat()].concat()
}

/// What adding says, and the slice afterwards.
fn added(d: &[u8], n: usize, b: &[u8]) -> (Said, Vec<u8>) {
    let result = || -> Result<Vec<u8>, Said> {
        if n > d.len() {
            return Err(refused(14));
        }
        let old = checked(&d[..n])?;
        let v = judged(b, old.len())?;
        if old.iter().any(|(_, _, w)| one_field(&v, w)) {
            return Err(refused(15));
        }
        let size = n + 8 + b.len();
        if size > d.len() || size > 65536 {
            return Err(refused(11));
        }
        let bodies: Vec<Vec<u8>> = old.iter().map(|(a, l, _)| d[*a..a + l].to_vec()).chain([b.to_vec()]).collect();
        Ok(bound(&bodies))
    };
    match result() {
        Err(s) => (s, d.to_vec()),
        Ok(new) => (passed(new.len()), [&new[..], &d[new.len()..]].concat()),
    }
}

/// What writing a body says, and the slice afterwards: zeros behind G and H are not written, those behind the other lists are a fault.
fn written(x: &Field, period: u64, e: &[Vec<u64>], d: &[u8]) -> (Said, Vec<u8>) {
    let lists = [&[unpad(&x.g), unpad(&x.h)], e].concat();
    let body = Value { p: x.p, period, lists }.bytes();
    let said = match (refusal(x.p, &x.g, &x.h), judged(&body, 0)) {
        (0, Err(s)) => s,
        (0, Ok(_)) if body.len() > d.len() => refused(11),
        (0, Ok(_)) => passed(body.len()),
        (n, _) => refused(u64::from(n)),
    };
    let after = if said.number == 0 { [&body, &d[body.len()..]].concat() } else { d.to_vec() };
    (said, after)
}

/// The norm of E is a constant that is not 0.
fn attested(v: &Value) -> bool {
    let e = [2, 3, 4].map(|k| v.lists[k].clone());
    norm(&v.field(), &e).len() == 1
}

/// A body of a field. Some have zeros behind G or H, as no body may.
fn some_body(n: &mut Numbers, x: &Field) -> Value {
    let (mut g, mut h) = (x.g.clone(), x.h.clone());
    if n.below(30) == 0 {
        (g, h) = (padded(n, &g), padded(n, &h));
    }
    let mut row = |length: u64, p: u64| -> Vec<u64> { (0..length).map(|_| n.below(p)).chain([1]).collect() };
    let (e0, e1, e2) = (row(2, x.p), row(1, x.p), row(0, x.p));
    Value { p: x.p, period: 1 + n.below(1000000), lists: vec![g, h, e0, e1, e2] }
}

/// Bytes with a small fault: a byte changed, a number set, some missing or too many. Mostly none.
fn damaged(n: &mut Numbers, s: &[u8], faults: u64) -> Vec<u8> {
    let mut s = s.to_vec();
    let at = n.below(s.len().max(1) as u64) as usize;
    match n.below(faults) {
        0 if !s.is_empty() => s[at] ^= 1 << n.below(8),
        1 if !s.is_empty() => s[at] = n.below(256) as u8,
        2 => s.truncate(at),
        3 => s.extend((0..1 + n.below(9)).map(|_| 0)),
        4 if s.len() > 16 => s[4] = n.below(8) as u8,
        5 if s.len() > 32 => s.swap(at, 16),
        _ => {}
    }
    s
}

fn read(n: &mut Numbers, book: &[u8]) -> Verdict {
    let right = checked(book);
    let told = api::book_check(book);
    let said = right.as_ref().map_or_else(|s| *s, |_| passed(0));
    ensure(told == said, || format!("the check tells {:?} for {:?}", told, said))?;
    let i = n.below(4) as usize;
    let (asked, place) = match &right {
        Err(s) => (*s, (0, 0)),
        Ok(all) => all.get(i).map_or((refused(14), (0, 0)), |(a, l, _)| (passed(0), (*a, *l))),
    };
    let told = api::book_ask(book, i);
    ensure(told == (asked, place.0, place.1), || format!("asking for {} tells {:?} for {:?}", i, told, asked))?;
    if n.below(8) > 0 {
        return Ok(());
    }
    let told = api::book_attest(book, i);
    let yes = right.as_ref().ok().and_then(|all| all.get(i)).map_or(false, |(_, _, v)| attested(v));
    ensure(told == Said { result: u64::from(yes), ..asked }, || format!("attesting {} tells {:?}, {} for {:?}", i, told, yes, asked))
}

fn parts(n: &mut Numbers, body: &[u8]) -> Verdict {
    let right = judged(body, 0);
    let number = |f: fn(&Value) -> u64| right.as_ref().map_or_else(|s| *s, |v| passed(f(v) as usize));
    ensure(api::body_prime(body) == number(|v| v.p), || format!("the prime: {:?}", api::body_prime(body)))?;
    ensure(api::body_period(body) == number(|v| v.period), || format!("the period: {:?}", api::body_period(body)))?;
    let (k, before) = (n.below(6) as usize, vec![7u64; n.below(9) as usize]);
    let (said, after) = match right.as_ref().map(|v| v.lists.get(k)) {
        Err(s) => (*s, before.clone()),
        Ok(None) => (refused(14), before.clone()),
        Ok(Some(l)) if l.len() > before.len() => (refused(11), before.clone()),
        Ok(Some(l)) => (passed(l.len()), [&l[..], &before[l.len()..]].concat()),
    };
    let mut out = before;
    let told = api::body_list(body, k, &mut out);
    ensure(told == said && out == after, || format!("list {} tells {:?} for {:?}, or other numbers", k, told, said))
}

fn adds(n: &mut Numbers, book: &[u8], body: &[u8], seen: &mut BTreeMap<(u64, u64), usize>) -> Verdict {
    let room = (book.len() + 8 + body.len()) as u64;
    let room = if n.below(3) == 0 { n.below(room + 9) } else { room + n.below(9) } as usize;
    let mut d: Vec<u8> = book.iter().copied().chain((0..).map(|i| i as u8 ^ 0x5A)).take(room).collect();
    let length = if n.below(16) == 0 { n.below(room as u64 + 3) as usize } else { book.len() };
    let (said, after) = added(&d, length, body);
    *seen.entry((said.number, said.reason)).or_default() += 1;
    let told = api::book_add(&mut d, length, body);
    ensure(told == said && d == after, || format!("adding tells {:?} for {:?}, or other bytes", told, said))
}

/// Books of bodies over a few fields, so that some are twice in a book; and such that were written by the library.
pub fn random(seed: u64, count: usize) -> (usize, usize) {
    let mut n = Numbers::new(seed);
    let mut t = Tally::new();
    let mut seen = BTreeMap::new();
    let fields: Vec<Field> = (0..24).map(|_| some_field(&mut n)).collect();
    for i in 0..count {
        let bodies: Vec<Vec<u8>> = (0..n.below(5))
            .map(|_| {
                let x = &fields[n.below(24) as usize];
                let whole = some_body(&mut n, x).bytes();
                damaged(&mut n, &whole, 60)
            })
            .collect();
        let book = damaged(&mut n, &bound(&bodies), 18);
        let x = &fields[n.below(24) as usize];
        let whole = some_body(&mut n, x).bytes();
        let body = damaged(&mut n, &whole, 18);
        let verdict = read(&mut n, &book).and_then(|_| parts(&mut n, &body)).and_then(|_| adds(&mut n, &book, &body, &mut seen));
        t.count(|| format!("book {} of {} bodies, {} bytes, body {:?}", i, bodies.len(), book.len(), body), verdict);
    }
    let seen: Vec<String> = seen.iter().map(|((number, reason), times)| format!("{}/{} {}", number, reason, times)).collect();
    println!("books, random: answers of adding seen, refusal/reason and how often: {}", seen.join(", "));
    t.done("books, random")
}

/// The first three of six rows as lists, without the zeros at their end.
pub fn lists_of(rows: &[u16]) -> Vec<Vec<u64>> {
    six_lists(rows)[..3].to_vec()
}

/// The body from the rows of a unit is the body from its lists, and other lengths of rows are refused.
fn rows_agree(n: &mut Numbers, x: &Field) -> Verdict {
    let c = n.below(40) as usize;
    let (mut rows, mut scratch) = (vec![0; 6 * c], vec![0; 6 * c]);
    let (_, period, _) = x.unit(300, &mut rows, &mut scratch);
    let lists = lists_of(&rows);
    let room = n.below(500) as usize;
    let (mut a, mut b) = (vec![0x5A; room], vec![0x5A; room]);
    let (said, after) = written(x, period, &lists, &a);
    let (told, other) = (x.write_rows(period, &rows, &mut a), x.write(period, &lists, &mut b));
    ensure(told == said && a == after, || format!("the rows tell {:?} for {:?}, or other bytes", told, said))?;
    ensure(other == said && b == after, || format!("the lists tell {:?} for {:?}, or other bytes", other, said))?;
    if told.number == 0 && n.below(8) == 0 {
        let book = bound(&[a[..told.result as usize].to_vec()]);
        ensure(api::book_attest(&book, 0) == passed(1), || "a unit is not attested".into())?;
    }
    let (before, odd) = (a.clone(), [24582, 6 * c + 1 + n.below(5) as usize][n.below(2) as usize]);
    let told = x.write_rows(period, &vec![0; odd], &mut a);
    let right = if x.refusal() == 0 { 14 } else { u64::from(x.refusal()) };
    ensure(told == refused(right) && a == before, || format!("{} numbers tell {:?}, or write", odd, told))
}

/// Beginning a book in every small room, and bodies from rows.
pub fn begun(seed: u64, count: usize) -> (usize, usize) {
    let mut n = Numbers::new(seed);
    let mut t = Tally::new();
    for room in 0..12 {
        let mut d = vec![0x5A; room];
        let told = api::book_begin(&mut d);
        let (said, after) = match room.checked_sub(6) {
            None => (refused(11), vec![0x5A; room]),
            Some(rest) => (passed(6), [bound(&[]), vec![0x5A; rest]].concat()),
        };
        t.count(|| format!("room {}", room), ensure(told == said && d == after, || format!("beginning tells {:?}", told)));
    }
    for _ in 0..count {
        let x = some_field(&mut n);
        let mut x = padded_field(&mut n, &x);
        if n.below(10) == 0 {
            x.p += 2;
        }
        t.count(|| format!("p {} G {:?} H {:?}", x.p, x.g, x.h), rows_agree(&mut n, &x));
    }
    t.done("books begun and bodies from rows, random")
}
