// Vectors of the book: blocks read, add and write, in hex.
use crate::api::{self, Said};
use crate::vectors::{ensure, field, list, Tally, Verdict};
use std::collections::HashMap;
use std::fs;

fn bytes(hex: &str) -> Vec<u8> {
    if hex == "-" {
        return Vec::new();
    }
    (0..hex.len() / 2).map(|i| u8::from_str_radix(&hex[2 * i..2 * i + 2], 16).expect("hex")).collect()
}

/// What is said, as the vectors write it; the result stands apart.
fn spoken(s: Said) -> String {
    match (s.number, s.reason) {
        (13, 1) => "13 mark".into(),
        (13, 2) => "13 contents".into(),
        (13, 3) => format!("13 body {}", s.entry),
        (13, 4) => format!("13 field {} {}", s.entry, s.other),
        (13, 5) => format!("13 twice {} {}", s.entry, s.other),
        (n, _) => n.to_string(),
    }
}

/// With a refusal the result is 0; without 13 there is no reason.
fn tidy(s: Said) -> Verdict {
    ensure(s.number == 0 || s.result == 0, || format!("a result beside a refusal: {:?}", s))?;
    ensure(s.number == 13 || (s.reason, s.entry, s.other) == (0, 0, 0), || format!("a reason without 13: {:?}", s))
}

fn agree(s: Said, right: &str) -> Verdict {
    tidy(s)?;
    ensure(spoken(s) == right, || format!("{} for {}", spoken(s), right))
}

fn check_line(book: &[u8], right: &str) -> Verdict {
    let s = api::book_check(book);
    match right.strip_prefix("ok ") {
        Some(n) => {
            agree(s, "0")?;
            ensure(api::book_bodies(book).to_string() == n, || format!("{} bodies for {}", api::book_bodies(book), n))
        }
        None => agree(s, right),
    }
}

/// A part reads back: written again from its numbers and lists it is the same bytes.
fn rewritten(part: &[u8]) -> Verdict {
    let (p, period) = (api::body_prime(part).result, api::body_period(part).result);
    let lists: Vec<Vec<u64>> = (0..5)
        .map(|k| {
            let mut out = vec![7; 5000];
            let n = api::body_list(part, k, &mut out).result as usize;
            out.truncate(n);
            out
        })
        .collect();
    let x = api::Field { p, g: lists[0].clone(), h: lists[1].clone() };
    let mut out = vec![0xA5; part.len() + 3];
    let s = x.write(period, &lists[2..], &mut out);
    let same = out[..part.len()] == *part && out[part.len()..] == [0xA5; 3];
    ensure(s.number == 0 && s.result as usize == part.len() && same, || "the part is not its own writing".into())
}

fn ask_line(book: &[u8], right: &str) -> Verdict {
    let (i, right) = right.split_once(' ').expect("an entry and an answer");
    let i: usize = i.parse().expect("an entry");
    let (s, start, size) = api::book_ask(book, i);
    match right.strip_prefix("0 start ") {
        Some(place) => {
            agree(s, "0")?;
            ensure(format!("{} length {}", start, size) == place, || format!("{} length {} for {}", start, size, place))?;
            rewritten(&book[start..start + size])
        }
        None => {
            ensure((start, size) == (0, 0), || "a place beside a refusal".into())?;
            agree(s, right)
        }
    }
}

fn attest_line(book: &[u8], right: &str) -> Verdict {
    let (i, right) = right.split_once(' ').expect("an entry and an answer");
    let s = api::book_attest(book, i.parse().expect("an entry"));
    match right {
        "yes" | "no" => {
            agree(s, "0")?;
            ensure((s.result == 1) == (right == "yes") && s.result < 2, || format!("{} for {}", s.result, right))
        }
        _ => agree(s, right),
    }
}

fn read_block(lines: &[&str]) -> Verdict {
    let mut book = Vec::new();
    for line in lines {
        let (word, rest) = line.split_once(' ').expect("a word and its value");
        match word {
            "book" => book = bytes(rest),
            "check" => check_line(&book, rest)?,
            "ask" => ask_line(&book, rest).map_err(|e| format!("ask {}: {}", rest, e))?,
            "attest" => attest_line(&book, rest).map_err(|e| format!("attest {}: {}", rest, e))?,
            _ => return Err(format!("a line that is not known: {}", word)),
        }
    }
    Ok(())
}

fn parts<'a>(lines: &[&'a str]) -> HashMap<&'a str, &'a str> {
    lines.iter().map(|l| l.split_once(' ').expect("a word and its value")).collect()
}

fn add_block(lines: &[&str]) -> Verdict {
    let v = parts(lines);
    let before = bytes(v["content"]);
    ensure(before.len().to_string() == v["slice"], || "the slice has another length".into())?;
    let mut out = before.clone();
    let s = api::book_add(&mut out, v["length"].parse().expect("a length"), &bytes(v["body"]));
    match v["result"].strip_prefix("0 newlength ") {
        Some(rest) => {
            agree(s, "0")?;
            let (n, new) = rest.split_once(" new ").expect("the new book");
            ensure(s.result.to_string() == n, || format!("length {} for {}", s.result, n))?;
            let new = bytes(new);
            ensure(out[..new.len()] == new[..] && out[new.len()..] == before[new.len()..], || "another slice".into())?;
            let again = api::book_check(&new);
            ensure(again.number == 0, || "the new book is not accepted".into())
        }
        None => {
            ensure(out == before, || "a refusal writes".into())?;
            agree(s, v["result"])
        }
    }
}

fn write_block(lines: &[&str]) -> Verdict {
    let v = parts(lines);
    let f: Vec<&str> = v["args"].split(';').collect();
    let room: usize = v["room"].parse().expect("a room");
    let before: Vec<u8> = (0..room).map(|i| (i as u8).wrapping_mul(37) ^ 0x5A).collect();
    let mut out = before.clone();
    let e: Vec<Vec<u64>> = f[4..7].iter().map(|l| list(l)).collect();
    let s = field(&f).write(f[3].parse().expect("a period"), &e, &mut out);
    match v["result"].strip_prefix("0 length ") {
        Some(rest) => {
            agree(s, "0")?;
            let (n, body) = rest.split_once(' ').expect("the body");
            ensure(s.result.to_string() == n, || format!("length {} for {}", s.result, n))?;
            let body = bytes(body.trim_start_matches("body ").trim_start_matches("bytes "));
            ensure(out[..body.len()] == body[..] && out[body.len()..] == before[body.len()..], || "other bytes".into())
        }
        None => {
            ensure(out == before, || "a refusal writes".into())?;
            agree(s, v["result"])
        }
    }
}

pub fn file(path: &str) -> (usize, usize) {
    let text = fs::read_to_string(path).expect("a readable file");
    let lines: Vec<&str> = text.lines().collect();
    let mut t = Tally::new();
    let mut i = 0;
    while i < lines.len() {
        let at = i + 1;
        let Some(kind) = lines[i].strip_prefix("case ") else {
            i += 1;
            continue;
        };
        let end = lines[at..].iter().position(|l| l.is_empty()).map_or(lines.len(), |n| at + n);
        let block = &lines[at..end];
        let verdict = match kind {
            "read" => read_block(block),
            "add" => add_block(block),
            "write" => write_block(block),
            _ => Err(format!("a block that is not known: {}", kind)),
        };
        t.count(|| format!("line {}", at), verdict);
        i = end;
    }
    t.done(path)
}
