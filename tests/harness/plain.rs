// An independent implementation of opening, written for obvious correctness, and random inputs, damaged ones among them.
use crate::api::Field;

/// A small generator of numbers (xorshift), so that a run can be repeated.
pub struct Numbers(u64);

impl Numbers {
    pub fn new(seed: u64) -> Self {
        Numbers(seed.wrapping_mul(0x9E3779B97F4A7C15) | 1)
    }
    pub fn below(&mut self, n: u64) -> u64 {
        self.0 ^= self.0 << 13;
        self.0 ^= self.0 >> 7;
        self.0 ^= self.0 << 17;
        self.0 % n
    }
}

fn is_prime(p: u64) -> bool {
    p >= 2 && (2..p).take_while(|d| d * d <= p).all(|d| p % d != 0)
}

pub fn trim(mut a: Vec<u64>) -> Vec<u64> {
    while a.last() == Some(&0) {
        a.pop();
    }
    a
}

pub fn inverse(p: u64, a: u64) -> u64 {
    (1..p).find(|x| a * x % p == 1).expect("an inverse")
}

fn rest(p: u64, a: &[u64], b: &[u64]) -> Vec<u64> {
    let mut a = trim(a.to_vec());
    let i = inverse(p, *b.last().unwrap());
    while a.len() >= b.len() {
        let q = a.last().unwrap() * i % p;
        let k = a.len() - b.len();
        for (j, x) in b.iter().enumerate() {
            a[k + j] = (a[k + j] + (p - q) * x) % p;
        }
        a = trim(a);
    }
    a
}

fn gcd(p: u64, a: &[u64], b: &[u64]) -> Vec<u64> {
    let (mut a, mut b) = (trim(a.to_vec()), trim(b.to_vec()));
    while !b.is_empty() {
        let c = rest(p, &a, &b);
        a = b;
        b = c;
    }
    a
}

fn squarefree(p: u64, a: &[u64]) -> bool {
    let d: Vec<u64> = a.iter().enumerate().skip(1).map(|(i, x)| (i as u64) * x % p).collect();
    gcd(p, a, &d).len() == 1
}

/// A list as a body has it.
fn strict(p: u64, a: &[u64]) -> bool {
    !a.is_empty() && a.len() <= 13 && a.iter().all(|&x| x < p) && *a.last().unwrap() != 0
}

/// A list as a caller has it: there may be zeros above its degree.
fn lent(p: u64, a: &[u64]) -> bool {
    a.len() <= 32 && a.iter().all(|&x| x < p) && (1..=13).contains(&trim(a.to_vec()).len())
}

/// A caller's list as it is read: without the zeros at its end; over 32 entries are read as none.
pub fn unpad(a: &[u64]) -> Vec<u64> {
    trim(if a.len() > 32 { Vec::new() } else { a.to_vec() })
}

/// The first refusal of callers' lists.
pub fn refusal(p: u64, g: &[u64], h: &[u64]) -> u32 {
    first_refusal(p, g, h, lent)
}

/// The first refusal of a body's lists, where a zero at the end is a fault.
pub fn body_refusal(p: u64, g: &[u64], h: &[u64]) -> u32 {
    first_refusal(p, g, h, strict)
}

fn first_refusal(p: u64, g: &[u64], h: &[u64], good: fn(u64, &[u64]) -> bool) -> u32 {
    if p < 5 || p > 65535 || !is_prime(p) {
        return 1;
    }
    if p % 3 == 1 {
        return 2;
    }
    if !good(p, g) || !good(p, h) {
        return 3;
    }
    let (g, h) = (&trim(g.to_vec())[..], &trim(h.to_vec())[..]);
    let (a, b) = (g.len() - 1, h.len() - 1);
    if a + b == 0 {
        return 4;
    }
    if a + b > 16 {
        return 5;
    }
    if a % 3 != b % 3 {
        return 6;
    }
    if !squarefree(p, g) || !squarefree(p, h) {
        return 7;
    }
    if gcd(p, g, h).len() != 1 {
        return 8;
    }
    0
}

pub fn product(p: u64, a: &[u64], b: &[u64]) -> Vec<u64> {
    let mut c = vec![0; (a.len() + b.len()).saturating_sub(1)];
    for (i, x) in a.iter().enumerate() {
        for (j, y) in b.iter().enumerate() {
            c[i + j] = (c[i + j] + x * y) % p;
        }
    }
    c
}

fn some_list(n: &mut Numbers, p: u64, longest: u64) -> Vec<u64> {
    let l = n.below(longest + 1);
    let mut a: Vec<u64> = (0..l).map(|_| n.below(p)).collect();
    match n.below(20) {
        0 => {
            if let Some(x) = a.last_mut() {
                *x = 0
            }
        }
        1 => {
            let at = n.below(l.max(1)) as usize;
            if let Some(x) = a.get_mut(at) {
                *x += p * (1 + n.below(70000))
            }
        }
        // a square or a p-th power times something
        2 | 3 => {
            if l > 0 && l <= 5 {
                let s = product(p, &a, &a);
                a = s;
            }
        }
        _ => {
            if let Some(x) = a.last_mut() {
                *x = (*x).max(1)
            }
        }
    }
    a
}

/// A list as it is or, in half of the cases, with zeros behind it and at most 32 entries.
pub fn padded(n: &mut Numbers, a: &[u64]) -> Vec<u64> {
    let room = 32usize.saturating_sub(a.len()) as u64;
    let zeros = match n.below(6) {
        0 => room,
        1 => room.min(1 + n.below(3)),
        2 => n.below(room + 1),
        _ => 0,
    };
    let mut l = a.to_vec();
    l.resize(a.len() + zeros as usize, 0);
    l
}

pub fn padded_field(n: &mut Numbers, x: &Field) -> Field {
    Field { p: x.p, g: padded(n, &x.g), h: padded(n, &x.h) }
}

/// A list with zeros behind it: 33 entries, or some more.
pub fn overlong(n: &mut Numbers, a: &[u64]) -> Vec<u64> {
    let mut l = a.to_vec();
    l.resize(a.len().max(33) + (n.below(2) * n.below(9)) as usize, 0);
    l
}

/// Zeros behind a list, and what is refused there: too many of them, nothing else, p or more among them.
fn some_zeros(n: &mut Numbers, p: u64, a: &[u64]) -> Vec<u64> {
    let mut l = padded(n, a);
    match n.below(16) {
        0 => l = overlong(n, a),
        1 => l.fill(0),
        2 => {
            // The last two are 0 when cut to 16 bits.
            let at = a.len() + n.below(20) as usize;
            if let Some(x) = l.get_mut(at) {
                *x = [p, p + 1, 65536, 1 << 32][n.below(4) as usize]
            }
        }
        _ => {}
    }
    l
}

pub const PRIMES: [u64; 12] = [5, 5, 11, 17, 23, 29, 41, 47, 53, 59, 71, 83];

/// Numbers and lists of all kinds, most of them refused.
pub fn some_input(n: &mut Numbers) -> Field {
    let p = if n.below(8) == 0 { n.below(70000) } else { PRIMES[n.below(12) as usize] };
    let mut g = some_list(n, p.max(2), 14);
    let longest = if n.below(2) == 0 { 3 } else { 14 };
    let mut h = some_list(n, p.max(2), longest);
    if n.below(10) == 0 && !g.is_empty() && g.len() < 6 {
        let d = some_list(n, p.max(2), 4);
        if !d.is_empty() && !h.is_empty() && h.len() < 6 {
            g = product(p.max(2), &g, &d);
            h = product(p.max(2), &h, &d);
        }
    }
    Field { p, g, h }
}

pub fn random(seed: u64, count: usize) -> (usize, usize) {
    let mut n = Numbers::new(seed);
    let (mut passed, mut failed) = (0, 0);
    let mut seen = [0usize; 9];
    for _ in 0..count {
        let mut x = some_input(&mut n);
        for l in [&mut x.g, &mut x.h] {
            *l = some_zeros(&mut n, x.p, l);
        }
        let (a, b) = (x.refusal(), refusal(x.p, &x.g, &x.h));
        if b < 9 {
            seen[b as usize] += 1;
        }
        if a == b {
            passed += 1;
        } else {
            if failed == 0 {
                println!("first difference: p {} G {:?} H {:?}: {} for {}", x.p, x.g, x.h, a, b);
            }
            failed += 1;
        }
    }
    println!("opening, random: {} inputs, answers 0 to 8 seen {:?}", count, seen);
    (passed, failed)
}
