// The C interface of the library, declared once, and a safe function for each entry point. A slice passes as pointer and length,
// an array of fixed length as pointer alone.
#[cfg(target_arch = "x86_64")]
mod c {
    #[rustfmt::skip]
    extern "C" {
        pub fn zaminuk_refusal(p: u64, g: *const u64, gn: usize, h: *const u64, hn: usize) -> u32;
        pub fn zaminuk_series(p: u64, g: *const u64, gn: usize, h: *const u64, hn: usize, r: *mut u16, rn: usize, w: *mut u16, wn: usize) -> u32;
        pub fn zaminuk_order(p: u64, g: *const u64, gn: usize, h: *const u64, hn: usize, rows: *mut u16) -> u32;
        pub fn zaminuk_check(p: u64, g: *const u64, gn: usize, h: *const u64, hn: usize, rows: *const u16) -> u32;
        pub fn zaminuk_step(p: u64, g: *const u64, gn: usize, h: *const u64, hn: usize, rows: *mut u16, degree: *mut u64) -> u32;
        pub fn zaminuk_walk(p: u64, g: *const u64, gn: usize, h: *const u64, hn: usize, budget: u64, rows: *mut u16, steps: *mut u64, sum: *mut u64) -> u32;
        pub fn zaminuk_from_order(p: u64, g: *const u64, gn: usize, h: *const u64, hn: usize, budget: u64, period: *mut u64, regulator: *mut u64) -> u32;
        pub fn zaminuk_unit(p: u64, g: *const u64, gn: usize, h: *const u64, hn: usize, budget: u64, rows: *mut u16, rn: usize, scratch: *mut u16, sn: usize, period: *mut u64, regulator: *mut u64) -> u32;
        pub fn zaminuk_one_field(p: u64, g: *const u64, gn: usize, h: *const u64, hn: usize, g2: *const u64, g2n: usize, h2: *const u64, h2n: usize, same: *mut u64) -> u32;
        pub fn zaminuk_transfer(p: u64, g: *const u64, gn: usize, h: *const u64, hn: usize, g2: *const u64, g2n: usize, h2: *const u64, h2n: usize, rows: *mut u16, rn: usize) -> u32;
        pub fn zaminuk_unit_scaled(p: u64, g: *const u64, gn: usize, h: *const u64, hn: usize, budget: u64, convention: u32, rows: *mut u16, rn: usize, scratch: *mut u16, sn: usize, period: *mut u64, regulator: *mut u64) -> u32;
        pub fn zaminuk_rescale(p: u64, g: *const u64, gn: usize, h: *const u64, hn: usize, from: u32, to: u32, rows: *mut u16, rn: usize) -> u32;
        pub fn zaminuk_sheet(records: *mut super::WalkRecord, count: usize, budget: u64) -> u32;
        pub fn zaminuk_book_check(book: *const u8, n: usize, said: *mut u64);
        pub fn zaminuk_book_bodies(book: *const u8, n: usize) -> usize;
        pub fn zaminuk_book_ask(book: *const u8, n: usize, i: usize, start: *mut usize, size: *mut usize, said: *mut u64);
        pub fn zaminuk_book_attest(book: *const u8, n: usize, i: usize, said: *mut u64);
        pub fn zaminuk_book_write(p: u64, g: *const u64, gn: usize, h: *const u64, hn: usize, period: u64, a: *const u64, an: usize, b: *const u64, bn: usize, c: *const u64, cn: usize, out: *mut u8, n: usize, said: *mut u64);
        pub fn zaminuk_book_add(out: *mut u8, n: usize, length: usize, body: *const u8, bn: usize, said: *mut u64);
        pub fn zaminuk_body_prime(body: *const u8, n: usize, said: *mut u64);
        pub fn zaminuk_body_period(body: *const u8, n: usize, said: *mut u64);
        pub fn zaminuk_body_list(body: *const u8, n: usize, k: usize, out: *mut u64, on: usize, said: *mut u64);
        pub fn zaminuk_book_begin(out: *mut u8, n: usize, said: *mut u64);
        pub fn zaminuk_book_write_rows(p: u64, g: *const u64, gn: usize, h: *const u64, hn: usize, period: u64, rows: *const u16, rn: usize, out: *mut u8, n: usize, said: *mut u64);
    }
}

// The library is x86-64 code. On other machines a process that runs under an emulator has it, and the same functions ask that process.
#[cfg(not(target_arch = "x86_64"))]
#[path = "remote.rs"]
mod c;

/// A basis: M0, M1, M2, N0, N1, N2, U, 17 coefficients each.
pub type Record = [u16; 119];

/// A field as it comes in: p, G, H.
pub struct Field {
    pub p: u64,
    pub g: Vec<u64>,
    pub h: Vec<u64>,
}

/// The states of a walk record; 1 to 9 and 14 are the refusals of these numbers, and any other is unknown.
pub const OPEN: u32 = 0;
pub const CLOSED: u32 = 100;

/// A walk that is under way, laid out as in C: its field, the basis reached, steps and degree sum so far, its state. G is the first ng
/// numbers of g, H the first nh of h.
#[repr(C)]
#[derive(Clone, Copy, PartialEq, Debug)]
pub struct WalkRecord {
    pub p: u64,
    pub g: [u64; 32],
    pub ng: usize,
    pub h: [u64; 32],
    pub nh: usize,
    pub basis: Record,
    pub steps: u64,
    pub sum: u64,
    pub state: u32,
}

/// What a call about a book says: refusal, inner reason, its entry, its other number, result.
#[derive(PartialEq, Debug, Clone, Copy)]
pub struct Said {
    pub number: u64,
    pub reason: u64,
    pub entry: u64,
    pub other: u64,
    pub result: u64,
}

/// Calls with a place for the five numbers.
fn said(call: impl FnOnce(*mut u64)) -> Said {
    let mut o = [u64::MAX; 5];
    call(o.as_mut_ptr());
    Said { number: o[0], reason: o[1], entry: o[2], other: o[3], result: o[4] }
}

impl Field {
    /// The number of the first refusal; 0 if the field is accepted.
    pub fn refusal(&self) -> u32 {
        unsafe { c::zaminuk_refusal(self.p, self.g.as_ptr(), self.g.len(), self.h.as_ptr(), self.h.len()) }
    }

    /// The first coefficients of r and w into two slices; 0 or the refusal.
    #[rustfmt::skip]
    pub fn series(&self, r: &mut [u16], w: &mut [u16]) -> u32 {
        unsafe { c::zaminuk_series(self.p, self.g.as_ptr(), self.g.len(), self.h.as_ptr(), self.h.len(), r.as_mut_ptr(), r.len(), w.as_mut_ptr(), w.len()) }
    }

    /// The basis of the order; 0 or the refusal.
    pub fn order(&self, rows: &mut Record) -> u32 {
        unsafe { c::zaminuk_order(self.p, self.g.as_ptr(), self.g.len(), self.h.as_ptr(), self.h.len(), rows.as_mut_ptr()) }
    }

    /// Whether the rows are a basis: 0 or the refusal.
    pub fn check(&self, rows: &Record) -> u32 {
        unsafe { c::zaminuk_check(self.p, self.g.as_ptr(), self.g.len(), self.h.as_ptr(), self.h.len(), rows.as_ptr()) }
    }

    /// One step in place: refusal, degree of the m divided by.
    pub fn step(&self, rows: &mut Record) -> (u32, u64) {
        let mut d = u64::MAX;
        let n = unsafe { c::zaminuk_step(self.p, self.g.as_ptr(), self.g.len(), self.h.as_ptr(), self.h.len(), rows.as_mut_ptr(), &mut d) };
        (n, d)
    }

    /// A walk in place: refusal, steps, degree sum.
    #[rustfmt::skip]
    pub fn walk(&self, budget: u64, rows: &mut Record) -> (u32, u64, u64) {
        let (mut s, mut d) = (u64::MAX, u64::MAX);
        let n = unsafe { c::zaminuk_walk(self.p, self.g.as_ptr(), self.g.len(), self.h.as_ptr(), self.h.len(), budget, rows.as_mut_ptr(), &mut s, &mut d) };
        (n, s, d)
    }

    /// The walk from the order: refusal, period, regulator.
    #[rustfmt::skip]
    pub fn from_order(&self, budget: u64) -> (u32, u64, u64) {
        let (mut l, mut r) = (u64::MAX, u64::MAX);
        let n = unsafe { c::zaminuk_from_order(self.p, self.g.as_ptr(), self.g.len(), self.h.as_ptr(), self.h.len(), budget, &mut l, &mut r) };
        (n, l, r)
    }

    /// The unit, E0 monic, and its inverse: refusal, period, regulator.
    #[rustfmt::skip]
    pub fn unit(&self, budget: u64, rows: &mut [u16], scratch: &mut [u16]) -> (u32, u64, u64) {
        let (mut l, mut r) = (u64::MAX, u64::MAX);
        let n = unsafe { c::zaminuk_unit(self.p, self.g.as_ptr(), self.g.len(), self.h.as_ptr(), self.h.len(), budget, rows.as_mut_ptr(), rows.len(), scratch.as_mut_ptr(), scratch.len(), &mut l, &mut r) };
        (n, l, r)
    }

    /// The unit scaled by a convention, 1 for E0 monic and 2 for norm 1, and its inverse: refusal, period, regulator.
    #[rustfmt::skip]
    pub fn unit_scaled(&self, budget: u64, convention: u32, rows: &mut [u16], scratch: &mut [u16]) -> (u32, u64, u64) {
        let (mut l, mut r) = (u64::MAX, u64::MAX);
        let n = unsafe { c::zaminuk_unit_scaled(self.p, self.g.as_ptr(), self.g.len(), self.h.as_ptr(), self.h.len(), budget, convention, rows.as_mut_ptr(), rows.len(), scratch.as_mut_ptr(), scratch.len(), &mut l, &mut r) };
        (n, l, r)
    }

    /// The six rows of a unit of positive degree scaled by one convention, and of its inverse, turned in place into those by another; 0 or
    /// the refusal.
    #[rustfmt::skip]
    pub fn rescale(&self, from: u32, to: u32, rows: &mut [u16]) -> u32 {
        unsafe { c::zaminuk_rescale(self.p, self.g.as_ptr(), self.g.len(), self.h.as_ptr(), self.h.len(), from, to, rows.as_mut_ptr(), rows.len()) }
    }

    /// Whether this pair and another over the same p are of one field: refusal, 1 for yes.
    #[rustfmt::skip]
    pub fn one_field(&self, g: &[u64], h: &[u64]) -> (u32, u64) {
        let mut same = u64::MAX;
        let n = unsafe { c::zaminuk_one_field(self.p, self.g.as_ptr(), self.g.len(), self.h.as_ptr(), self.h.len(), g.as_ptr(), g.len(), h.as_ptr(), h.len(), &mut same) };
        (n, same)
    }

    /// The six rows of a unit of this pair, carried over to another pair of the same field in place; 0 or the refusal.
    #[rustfmt::skip]
    pub fn transfer(&self, g: &[u64], h: &[u64], rows: &mut [u16]) -> u32 {
        unsafe { c::zaminuk_transfer(self.p, self.g.as_ptr(), self.g.len(), self.h.as_ptr(), self.h.len(), g.as_ptr(), g.len(), h.as_ptr(), h.len(), rows.as_mut_ptr(), rows.len()) }
    }

    /// Writes a body of this field.
    #[rustfmt::skip]
    pub fn write(&self, period: u64, e: &[Vec<u64>], out: &mut [u8]) -> Said {
        said(|o| unsafe { c::zaminuk_book_write(self.p, self.g.as_ptr(), self.g.len(), self.h.as_ptr(), self.h.len(), period, e[0].as_ptr(), e[0].len(), e[1].as_ptr(), e[1].len(), e[2].as_ptr(), e[2].len(), out.as_mut_ptr(), out.len(), o) })
    }

    /// Writes a body of this field from the six rows of its unit and the inverse.
    #[rustfmt::skip]
    pub fn write_rows(&self, period: u64, rows: &[u16], out: &mut [u8]) -> Said {
        said(|o| unsafe { c::zaminuk_book_write_rows(self.p, self.g.as_ptr(), self.g.len(), self.h.as_ptr(), self.h.len(), period, rows.as_ptr(), rows.len(), out.as_mut_ptr(), out.len(), o) })
    }
}

impl WalkRecord {
    /// A record that stands at the order of a field. Where the field is refused its state says so, and a sheet passes it over.
    pub fn start(p: u64, g: &[u64], h: &[u64]) -> WalkRecord {
        let mut r = WalkRecord { p, g: [0; 32], ng: g.len(), h: [0; 32], nh: h.len(), basis: [0; 119], steps: 0, sum: 0, state: OPEN };
        for (room, l) in [(&mut r.g, g), (&mut r.h, h)] {
            room.iter_mut().zip(l).for_each(|(to, from)| *to = *from);
        }
        r.state = Field { p, g: g.to_vec(), h: h.to_vec() }.order(&mut r.basis);
        r
    }
}

/// Walks each record of a sheet on by at most `budget` steps; 0 or the refusal of the call. Refusals of records are in their states.
pub fn sheet(records: &mut [WalkRecord], budget: u64) -> u32 {
    unsafe { c::zaminuk_sheet(records.as_mut_ptr(), records.len(), budget) }
}

/// Begins a book, one with no bodies, at the front of a slice; the result is its length.
pub fn book_begin(out: &mut [u8]) -> Said {
    said(|o| unsafe { c::zaminuk_book_begin(out.as_mut_ptr(), out.len(), o) })
}

/// Checks a book.
pub fn book_check(book: &[u8]) -> Said {
    said(|o| unsafe { c::zaminuk_book_check(book.as_ptr(), book.len(), o) })
}

/// The number of bodies that the contents say.
pub fn book_bodies(book: &[u8]) -> usize {
    unsafe { c::zaminuk_book_bodies(book.as_ptr(), book.len()) }
}

/// Asks for an entry: what is said, and start and length of its part.
pub fn book_ask(book: &[u8], i: usize) -> (Said, usize, usize) {
    let (mut a, mut l) = (usize::MAX, usize::MAX);
    let s = said(|o| unsafe { c::zaminuk_book_ask(book.as_ptr(), book.len(), i, &mut a, &mut l, o) });
    (s, a, l)
}

/// Attests an entry: the result is 1 for yes.
pub fn book_attest(book: &[u8], i: usize) -> Said {
    said(|o| unsafe { c::zaminuk_book_attest(book.as_ptr(), book.len(), i, o) })
}

/// Adds a body to the book of the given length at the front of a slice; the result is the new length.
pub fn book_add(out: &mut [u8], length: usize, body: &[u8]) -> Said {
    said(|o| unsafe { c::zaminuk_book_add(out.as_mut_ptr(), out.len(), length, body.as_ptr(), body.len(), o) })
}

/// The prime of a body: the result.
pub fn body_prime(body: &[u8]) -> Said {
    said(|o| unsafe { c::zaminuk_body_prime(body.as_ptr(), body.len(), o) })
}

/// The period of a body: the result.
pub fn body_period(body: &[u8]) -> Said {
    said(|o| unsafe { c::zaminuk_body_period(body.as_ptr(), body.len(), o) })
}

/// List k of a body, 0 to 4, at the front of a slice; the result is its length.
pub fn body_list(body: &[u8], k: usize, out: &mut [u64]) -> Said {
    said(|o| unsafe { c::zaminuk_body_list(body.as_ptr(), body.len(), k, out.as_mut_ptr(), out.len(), o) })
}
