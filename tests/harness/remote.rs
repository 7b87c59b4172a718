// The C interface where the archive's x86-64 code cannot be linked: a process that has it (serve.c) runs under an emulator, and each
// function here is a request to that process. serve.c says what requests and answers are.
use self::Arg::{Given, Lent, Number};
use super::WalkRecord;
use std::cell::RefCell;
use std::io::{Read, Write};
use std::process::{Child, Command, Stdio};
use std::{mem, ptr, slice};

#[cfg(not(all(target_endian = "little", target_pointer_width = "64")))]
compile_error!("words have 64 bits and stand in memory lowest byte first, here as in the process");

/// An argument: a number, bytes that are only read, or bytes that may be written.
enum Arg<'a> {
    Number(u64),
    Lent(&'a [u8]),
    Given(&'a mut [u8]),
}

impl Arg<'_> {
    /// Its words: what it is, its number or length, and its bytes with some more after them.
    fn words(&self) -> Vec<u8> {
        let (block, n, bytes) = match self {
            Number(n) => (0, *n, None),
            Lent(b) => (1, b.len() as u64, Some(&b[..])),
            Given(b) => (1, b.len() as u64, Some(&b[..])),
        };
        let mut words = [block, n].map(u64::to_le_bytes).concat();
        if let Some(b) = bytes {
            words.extend(b);
            words.extend(&[0xA5; 8][b.len() % 8..]);
        }
        words
    }
}

/// The words of a request, or of its answer.
fn words(first: u64, args: &[Arg]) -> Vec<u8> {
    let mut all = [first, args.len() as u64].map(u64::to_le_bytes).concat();
    args.iter().for_each(|a| all.extend(a.words()));
    all
}

fn start() -> Child {
    let mut command = Command::new("tests/machine");
    command.arg("target/tests/serve").stdin(Stdio::piped()).stdout(Stdio::piped()).spawn().expect("tests/machine")
}

thread_local! {
    /// A process for each thread that asks.
    static SERVER: RefCell<Option<Child>> = const { RefCell::new(None) };
}

/// Sends words, and waits for as many. Where they do not come the tests are over.
fn asked(words: &[u8]) -> Vec<u8> {
    SERVER.with_borrow_mut(|server| asked_of(server.get_or_insert_with(start), words))
}

fn asked_of(child: &mut Child, words: &[u8]) -> Vec<u8> {
    let (to, from) = (child.stdin.as_mut().expect("its input"), child.stdout.as_mut().expect("its output"));
    let mut answer = vec![0; words.len()];
    let request = [&(words.len() / 8).to_le_bytes(), words].concat();
    if let Err(e) = to.write_all(&request).and_then(|_| from.read_exact(&mut answer)) {
        panic!("target/tests/serve gave no whole answer ({}); it ended with {}", e, child.wait().expect("an end"));
    }
    answer
}

/// Calls the entry at a place of the table.
fn call(place: u64, args: &mut [Arg]) -> u64 {
    let after = asked(&words(place, args));
    let mut first = [0; 8];
    first.copy_from_slice(&after[..8]);
    let result = u64::from_le_bytes(first);
    let mut at = 16;
    for a in args.iter_mut() {
        let room = a.words().len();
        if let Given(b) = a {
            b.copy_from_slice(&after[at + 16..][..b.len()]);
        }
        at += room;
    }
    assert!(after == words(result, args), "entry {} wrote outside the blocks that it may write", place);
    result
}

fn count<'a>(n: usize) -> Arg<'a> {
    Number(n as u64)
}

/// So many items to read.
unsafe fn lent<'a, T>(at: *const T, n: usize) -> Arg<'a> {
    Lent(slice::from_raw_parts(at.cast(), n * mem::size_of::<T>()))
}

/// Room for so many items.
unsafe fn given<'a, T>(at: *mut T, n: usize) -> Arg<'a> {
    Given(slice::from_raw_parts_mut(at.cast(), n * mem::size_of::<T>()))
}

pub unsafe fn zaminuk_refusal(p: u64, g: *const u64, gn: usize, h: *const u64, hn: usize) -> u32 {
    call(0, &mut [Number(p), lent(g, gn), count(gn), lent(h, hn), count(hn)]) as u32
}

#[rustfmt::skip]
pub unsafe fn zaminuk_series(p: u64, g: *const u64, gn: usize, h: *const u64, hn: usize, r: *mut u16, rn: usize, w: *mut u16, wn: usize) -> u32 {
    call(1, &mut [Number(p), lent(g, gn), count(gn), lent(h, hn), count(hn), given(r, rn), count(rn), given(w, wn), count(wn)]) as u32
}

pub unsafe fn zaminuk_order(p: u64, g: *const u64, gn: usize, h: *const u64, hn: usize, rows: *mut u16) -> u32 {
    call(2, &mut [Number(p), lent(g, gn), count(gn), lent(h, hn), count(hn), given(rows, 119)]) as u32
}

pub unsafe fn zaminuk_check(p: u64, g: *const u64, gn: usize, h: *const u64, hn: usize, rows: *const u16) -> u32 {
    call(3, &mut [Number(p), lent(g, gn), count(gn), lent(h, hn), count(hn), lent(rows, 119)]) as u32
}

pub unsafe fn zaminuk_step(p: u64, g: *const u64, gn: usize, h: *const u64, hn: usize, rows: *mut u16, degree: *mut u64) -> u32 {
    call(4, &mut [Number(p), lent(g, gn), count(gn), lent(h, hn), count(hn), given(rows, 119), given(degree, 1)]) as u32
}

#[rustfmt::skip]
pub unsafe fn zaminuk_walk(p: u64, g: *const u64, gn: usize, h: *const u64, hn: usize, budget: u64, rows: *mut u16, steps: *mut u64, sum: *mut u64) -> u32 {
    call(5, &mut [Number(p), lent(g, gn), count(gn), lent(h, hn), count(hn), Number(budget), given(rows, 119), given(steps, 1), given(sum, 1)]) as u32
}

#[rustfmt::skip]
pub unsafe fn zaminuk_from_order(p: u64, g: *const u64, gn: usize, h: *const u64, hn: usize, budget: u64, period: *mut u64, regulator: *mut u64) -> u32 {
    call(6, &mut [Number(p), lent(g, gn), count(gn), lent(h, hn), count(hn), Number(budget), given(period, 1), given(regulator, 1)]) as u32
}

#[rustfmt::skip]
pub unsafe fn zaminuk_unit(p: u64, g: *const u64, gn: usize, h: *const u64, hn: usize, budget: u64, rows: *mut u16, rn: usize, scratch: *mut u16, sn: usize, period: *mut u64, regulator: *mut u64) -> u32 {
    call(7, &mut [Number(p), lent(g, gn), count(gn), lent(h, hn), count(hn), Number(budget), given(rows, rn), count(rn), given(scratch, sn), count(sn), given(period, 1), given(regulator, 1)]) as u32
}

#[rustfmt::skip]
pub unsafe fn zaminuk_one_field(p: u64, g: *const u64, gn: usize, h: *const u64, hn: usize, g2: *const u64, g2n: usize, h2: *const u64, h2n: usize, same: *mut u64) -> u32 {
    call(8, &mut [Number(p), lent(g, gn), count(gn), lent(h, hn), count(hn), lent(g2, g2n), count(g2n), lent(h2, h2n), count(h2n), given(same, 1)]) as u32
}

#[rustfmt::skip]
pub unsafe fn zaminuk_transfer(p: u64, g: *const u64, gn: usize, h: *const u64, hn: usize, g2: *const u64, g2n: usize, h2: *const u64, h2n: usize, rows: *mut u16, rn: usize) -> u32 {
    call(9, &mut [Number(p), lent(g, gn), count(gn), lent(h, hn), count(hn), lent(g2, g2n), count(g2n), lent(h2, h2n), count(h2n), given(rows, rn), count(rn)]) as u32
}

pub unsafe fn zaminuk_book_check(book: *const u8, n: usize, said: *mut u64) {
    call(10, &mut [lent(book, n), count(n), given(said, 5)]);
}

pub unsafe fn zaminuk_book_bodies(book: *const u8, n: usize) -> usize {
    call(11, &mut [lent(book, n), count(n)]) as usize
}

pub unsafe fn zaminuk_book_ask(book: *const u8, n: usize, i: usize, start: *mut usize, size: *mut usize, said: *mut u64) {
    call(12, &mut [lent(book, n), count(n), count(i), given(start, 1), given(size, 1), given(said, 5)]);
}

pub unsafe fn zaminuk_book_attest(book: *const u8, n: usize, i: usize, said: *mut u64) {
    call(13, &mut [lent(book, n), count(n), count(i), given(said, 5)]);
}

#[rustfmt::skip]
pub unsafe fn zaminuk_book_write(p: u64, g: *const u64, gn: usize, h: *const u64, hn: usize, period: u64, a: *const u64, an: usize, b: *const u64, bn: usize, c: *const u64, cn: usize, out: *mut u8, n: usize, said: *mut u64) {
    call(14, &mut [Number(p), lent(g, gn), count(gn), lent(h, hn), count(hn), Number(period), lent(a, an), count(an), lent(b, bn), count(bn), lent(c, cn), count(cn), given(out, n), count(n), given(said, 5)]);
}

pub unsafe fn zaminuk_book_add(out: *mut u8, n: usize, length: usize, body: *const u8, bn: usize, said: *mut u64) {
    call(15, &mut [given(out, n), count(n), count(length), lent(body, bn), count(bn), given(said, 5)]);
}

pub unsafe fn zaminuk_body_prime(body: *const u8, n: usize, said: *mut u64) {
    call(16, &mut [lent(body, n), count(n), given(said, 5)]);
}

pub unsafe fn zaminuk_body_period(body: *const u8, n: usize, said: *mut u64) {
    call(17, &mut [lent(body, n), count(n), given(said, 5)]);
}

pub unsafe fn zaminuk_body_list(body: *const u8, n: usize, k: usize, out: *mut u64, on: usize, said: *mut u64) {
    call(18, &mut [lent(body, n), count(n), count(k), given(out, on), count(on), given(said, 5)]);
}

pub unsafe fn zaminuk_book_begin(out: *mut u8, n: usize, said: *mut u64) {
    call(19, &mut [given(out, n), count(n), given(said, 5)]);
}

#[rustfmt::skip]
pub unsafe fn zaminuk_book_write_rows(p: u64, g: *const u64, gn: usize, h: *const u64, hn: usize, period: u64, rows: *const u16, rn: usize, out: *mut u8, n: usize, said: *mut u64) {
    call(20, &mut [Number(p), lent(g, gn), count(gn), lent(h, hn), count(hn), Number(period), lent(rows, rn), count(rn), given(out, n), count(n), given(said, 5)]);
}

#[rustfmt::skip]
pub unsafe fn zaminuk_unit_scaled(p: u64, g: *const u64, gn: usize, h: *const u64, hn: usize, budget: u64, convention: u32, rows: *mut u16, rn: usize, scratch: *mut u16, sn: usize, period: *mut u64, regulator: *mut u64) -> u32 {
    call(21, &mut [Number(p), lent(g, gn), count(gn), lent(h, hn), count(hn), Number(budget), Number(convention.into()), given(rows, rn), count(rn), given(scratch, sn), count(sn), given(period, 1), given(regulator, 1)]) as u32
}

#[rustfmt::skip]
pub unsafe fn zaminuk_rescale(p: u64, g: *const u64, gn: usize, h: *const u64, hn: usize, from: u32, to: u32, rows: *mut u16, rn: usize) -> u32 {
    call(22, &mut [Number(p), lent(g, gn), count(gn), lent(h, hn), count(hn), Number(from.into()), Number(to.into()), given(rows, rn), count(rn)]) as u32
}

/// Puts the members of a record where it is to stand; what lies between them stays as it is there.
unsafe fn put(r: &WalkRecord, to: *mut WalkRecord) {
    ptr::addr_of_mut!((*to).p).write(r.p);
    ptr::addr_of_mut!((*to).g).write(r.g);
    ptr::addr_of_mut!((*to).ng).write(r.ng);
    ptr::addr_of_mut!((*to).h).write(r.h);
    ptr::addr_of_mut!((*to).nh).write(r.nh);
    ptr::addr_of_mut!((*to).basis).write(r.basis);
    ptr::addr_of_mut!((*to).steps).write(r.steps);
    ptr::addr_of_mut!((*to).sum).write(r.sum);
    ptr::addr_of_mut!((*to).state).write(r.state);
}

/// The bytes between a record's members have no value that could be sent, so the records go out and come back in words of their own.
pub unsafe fn zaminuk_sheet(records: *mut WalkRecord, n: usize, budget: u64) -> u32 {
    let each = mem::size_of::<WalkRecord>() / 8;
    let records = slice::from_raw_parts_mut(records, n);
    let mut words = vec![0x5A5A_5A5A_5A5A_5A5A_u64; n * each];
    for (r, to) in records.iter().zip(words.chunks_exact_mut(each)) {
        put(r, to.as_mut_ptr().cast());
    }
    let no = call(23, &mut [given(words.as_mut_ptr(), n * each), count(n), Number(budget)]) as u32;
    for (r, from) in records.iter_mut().zip(words.chunks_exact(each)) {
        *r = from.as_ptr().cast::<WalkRecord>().read();
    }
    no
}
