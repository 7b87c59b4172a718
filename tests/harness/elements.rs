// An independent arithmetic of elements A + Br + Cw of the order and of units with their inverses, written for obvious correctness.
use crate::api::Field;
use crate::plain::{inverse, product, trim, unpad};

/// The lists A, B, C, without zeros at their ends.
pub type Element = [Vec<u64>; 3];

/// The sum of products of polynomials, each with a factor.
fn sum(p: u64, terms: &[(u64, &[&[u64]])]) -> Vec<u64> {
    let mut all = Vec::new();
    for (k, factors) in terms {
        let one = factors.iter().fold(vec![*k % p], |a, b| product(p, &a, b));
        all.resize(one.len().max(all.len()), 0);
        all.iter_mut().zip(one).for_each(|(x, y)| *x = (*x + y) % p);
    }
    trim(all)
}

/// A³ + B³GH² + C³G²H − 3ABCGH
pub fn norm(x: &Field, e: &Element) -> Vec<u64> {
    let (g, h, a, b, c) = (&x.g[..], &x.h[..], &e[0][..], &e[1][..], &e[2][..]);
    sum(x.p, &[(1, &[a, a, a]), (1, &[b, b, b, g, h, h]), (1, &[c, c, c, g, g, h]), (x.p - 3, &[a, b, c, g, h])])
}

/// A product, by r² = Hw, w² = Gr, rw = GH.
fn times(x: &Field, e: &Element, f: &Element) -> Element {
    let (g, h, [a, b, c], [d, k, l]) = (&x.g[..], &x.h[..], parts(e), parts(f));
    [
        sum(x.p, &[(1, &[a, d]), (1, &[b, l, g, h]), (1, &[c, k, g, h])]),
        sum(x.p, &[(1, &[a, k]), (1, &[b, d]), (1, &[c, l, g])]),
        sum(x.p, &[(1, &[a, l]), (1, &[c, d]), (1, &[b, k, h])]),
    ]
}

fn parts(e: &Element) -> [&[u64]; 3] {
    [&e[0], &e[1], &e[2]]
}

fn scaled(p: u64, k: u64, e: &Element) -> Element {
    e.clone().map(|l| l.iter().map(|v| k * v % p).collect())
}

fn cube_root(p: u64, k: u64) -> u64 {
    (1..p).find(|s| s * s % p * s % p == k % p).expect("a cube root")
}

/// Whether the degree of a unit is above 0. Then, and only then, E0, E1·r and E2·w have one degree above 0 and one leading coefficient.
fn positive(x: &Field, e: &Element) -> bool {
    let (p, g, h) = (x.p, unpad(&x.g), unpad(&x.h));
    let (dg, dh, a, b) = (g.len() - 1, h.len() - 1, g[g.len() - 1], h[h.len() - 1]);
    // Degree and leading coefficient of 1, r, w: r³ = GH², w³ = G²H.
    let sizes = [(0, 1), ((dg + 2 * dh) / 3, cube_root(p, a * b % p * b)), ((2 * dg + dh) / 3, cube_root(p, a * a % p * b))];
    let size = |(l, (d, k)): (&Vec<u64>, (usize, u64))| Some((d + l.len().checked_sub(1)?, l.last()? * k % p));
    let all: Option<Vec<(usize, u64)>> = e.iter().zip(sizes).map(size).collect();
    all.map_or(false, |s| s[0].0 > 0 && s[0] == s[1] && s[1] == s[2])
}

/// Six rows as lists without the zeros at their ends.
pub fn six_lists(rows: &[u16]) -> [Vec<u64>; 6] {
    let c = rows.len() / 6;
    [0, 1, 2, 3, 4, 5].map(|k| trim(rows[k * c..(k + 1) * c].iter().map(|&v| u64::from(v)).collect()))
}

/// Lists as rows of c numbers, one behind the other.
pub fn rows_of(lists: &[Vec<u64>], c: usize) -> Vec<u16> {
    lists.iter().flat_map(|l| (0..c).map(|i| l.get(i).map_or(0, |&v| v as u16))).collect()
}

/// A unit and its inverse, or what is taken for them.
#[derive(Clone)]
pub struct Unit {
    pub e: Element,
    pub f: Element,
}

impl Unit {
    pub fn one() -> Self {
        let one = || [vec![1], vec![], vec![]];
        Unit { e: one(), f: one() }
    }

    pub fn of(rows: &[u16]) -> Self {
        let [a, b, c, d, k, l] = six_lists(rows);
        Unit { e: [a, b, c], f: [d, k, l] }
    }

    /// The six rows, of c numbers each; what does not fit is cut off.
    pub fn rows(&self, c: usize) -> Vec<u16> {
        [rows_of(&self.e, c), rows_of(&self.f, c)].concat()
    }

    /// The least c for which nothing is cut off.
    pub fn length(&self) -> usize {
        self.e.iter().chain(&self.f).map(|l| l.len()).max().unwrap_or(0)
    }

    pub fn inverse(&self) -> Self {
        Unit { e: self.f.clone(), f: self.e.clone() }
    }

    pub fn times(&self, x: &Field, other: &Unit) -> Self {
        Unit { e: times(x, &self.e, &other.e), f: times(x, &self.f, &other.f) }
    }

    /// k times the unit, the inverse over k.
    pub fn scaled(&self, p: u64, k: u64) -> Self {
        Unit { e: scaled(p, k, &self.e), f: scaled(p, inverse(p, k), &self.f) }
    }

    /// The same unit scaled by a convention: 1, E0 is monic; 2, the norm is 1. Where E0 is 0 convention 1 changes nothing.
    pub fn by(&self, x: &Field, convention: u32) -> Self {
        let k = match convention {
            1 => *self.e[0].last().unwrap_or(&1),
            _ => cube_root(x.p, norm(x, &self.e)[0]),
        };
        self.scaled(x.p, inverse(x.p, k))
    }

    /// It is a unit of positive degree scaled by the convention, with its inverse.
    pub fn is_by(&self, x: &Field, convention: u32) -> bool {
        let right = match convention {
            1 => self.e[0].last() == Some(&1),
            2 => norm(x, &self.e) == [1],
            _ => false,
        };
        right && times(x, &self.e, &self.f) == Unit::one().e && positive(x, &self.e)
    }
}
