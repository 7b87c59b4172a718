// Whole inputs of the lister against whole outputs: at once, in pieces of odd sizes through a pipe and, where the input is short, in
// pieces that are each one read.
use crate::vectors::{ensure, names, Tally, Verdict};
use std::fs;
use std::io::{Read, Write};
use std::iter;
use std::os::fd::OwnedFd;
use std::os::unix::net::UnixDatagram;
use std::process::{Child, Command, Stdio};
use std::thread::{self, JoinHandle};

const PROGRAM: &str = "./units";

fn start(input: Stdio) -> Child {
    Command::new(PROGRAM).stdin(input).stdout(Stdio::piped()).spawn().expect("the lister")
}

/// All that the program writes while it is fed; a program that fails is no pass, whatever it wrote before.
fn output(mut child: Child, feeder: JoinHandle<()>) -> Vec<u8> {
    let mut out = Vec::new();
    child.stdout.take().expect("its output").read_to_end(&mut out).expect("readable output");
    feeder.join().expect("the feeder");
    let end = child.wait().expect("an end");
    if !end.success() {
        out.extend_from_slice(format!("\nthe lister ended with {}", end).as_bytes());
    }
    out
}

/// What the program writes when its input comes through a pipe in pieces of these sizes, over and over.
fn listed(input: &[u8], sizes: &'static [usize]) -> Vec<u8> {
    let mut child = start(Stdio::piped());
    let mut to = child.stdin.take().expect("its input");
    let input = input.to_vec();
    let feeder = thread::spawn(move || {
        let mut at = 0;
        for n in sizes.iter().cycle() {
            let end = input.len().min(at + n);
            if at == input.len() || to.write_all(&input[at..end]).and_then(|_| to.flush()).is_err() {
                break;
            }
            at = end;
        }
    });
    output(child, feeder)
}

/// What it writes when every read brings one piece of this size. A pipe may join pieces; a datagram is one read, and an empty one
/// reads as the input's end.
fn listed_by_reads(input: &[u8], size: usize) -> Vec<u8> {
    let (to, from) = UnixDatagram::pair().expect("two sockets");
    let child = start(Stdio::from(OwnedFd::from(from)));
    let input = input.to_vec();
    let feeder = thread::spawn(move || {
        let end: &[u8] = &[];
        for piece in input.chunks(size).chain(iter::once(end)) {
            if to.send(piece).is_err() {
                break;
            }
        }
    });
    output(child, feeder)
}

fn compare(out: &[u8], right: &[u8]) -> Verdict {
    let same = |(a, b): (&[u8], &[u8])| a == b;
    let n = out.split(|&b| b == b'\n').zip(right.split(|&b| b == b'\n')).take_while(|&x| same(x)).count();
    ensure(out == right, || format!("output differs from line {} on", n + 1))
}

/// One input, and the output beside it.
pub fn file(path: &str) -> (usize, usize) {
    let input = fs::read(path).expect("a readable file");
    let name = path.rsplit_once('.').map_or(path, |(name, _)| name);
    let right = fs::read(format!("{}.out", name)).expect("the output beside it");
    let mut t = Tally::new();
    t.count(|| "the whole".into(), compare(&listed(&input, &[1 << 20]), &right));
    t.count(|| "pieces".into(), compare(&listed(&input, &[1, 254, 3, 4097, 255, 70000, 256, 2]), &right));
    if input.len() < 4000 {
        for size in [1, 2, 7, 254, 255, 256, 257] {
            t.count(|| format!("reads of {}", size), compare(&listed_by_reads(&input, size), &right));
        }
    }
    t.done(path)
}

/// The examples, each NAME.txt with NAME.out, and one of them many times over, so that lines stand across the edges of buffers.
pub fn examples(dir: &str) -> (usize, usize) {
    let (mut passed, mut failed) = (0, 0);
    for name in names(dir).iter().filter(|n| n.ends_with(".txt")) {
        let (a, b) = file(&format!("{}/{}", dir, name));
        passed += a;
        failed += b;
    }
    let read = |name: &str| fs::read(format!("{}/{}", dir, name)).expect("an example").repeat(4000);
    let mut t = Tally::new();
    t.count(|| "the whole".into(), compare(&listed(&read("fields.txt"), &[1 << 20]), &read("fields.out")));
    let (a, b) = t.done("16,000 lines");
    (passed + a, failed + b)
}
