// The lister where input or output fail, wait or close, and how its script is started.
use crate::vectors::{ensure, Tally, Verdict};
use std::fs::{self, File};
use std::io::{self, Read, Write};
use std::os::fd::{AsRawFd, OwnedFd};
use std::os::unix::fs::symlink;
use std::os::unix::net::UnixStream;
use std::process::{Command, Output, Stdio};
use std::thread;
use std::time::Duration;

extern "C" {
    fn fcntl(fd: i32, command: i32, ...) -> i32;
}

/// From now on a call on this file says that it would have to wait, and does not.
fn not_waiting(file: &impl AsRawFd) {
    let (set_flags, nonblock) = (4, 0o4000);
    assert!(unsafe { fcntl(file.as_raw_fd(), set_flags, nonblock) } == 0, "fcntl");
}

fn shell(script: &str) -> Output {
    Command::new("bash").args(["-c", script]).output().expect("bash")
}

fn text(bytes: &[u8]) -> String {
    String::from_utf8_lossy(bytes).into_owned()
}

/// Status, output, and a part of what is said on standard error (where that is empty: nothing at all is said).
fn ends(o: Output, status: i32, out: &[u8], said: &str) -> Verdict {
    let err = text(&o.stderr);
    ensure(o.status.code() == Some(status), || format!("ended with {}, and said {}", o.status, err))?;
    ensure(o.stdout == out, || format!("wrote {:?}", text(&o.stdout)))?;
    ensure(if said.is_empty() { err.is_empty() } else { err.contains(said) }, || format!("said {:?}", err))
}

/// An input whose reading fails behind these bytes: the other end is closed while something sent to it is unread.
fn broken_behind(bytes: &[u8]) -> Output {
    let (mut near, mut far) = UnixStream::pair().expect("two sockets");
    near.write_all(b"unread").and_then(|_| far.write_all(bytes)).expect("room");
    drop(far);
    Command::new("./units").stdin(Stdio::from(OwnedFd::from(near))).output().expect("the lister")
}

/// 5,000 lines, an output that does not wait, and a reader that is slow at first.
fn slow_reader(input: &[u8], right: &[u8]) -> Verdict {
    let (mut from, to) = io::pipe().expect("a pipe");
    not_waiting(&to);
    let mut child = Command::new("./units").stdin(Stdio::piped()).stdout(Stdio::from(to)).spawn().expect("the lister");
    let mut feed = child.stdin.take().expect("its input");
    let input = input.to_vec();
    let feeder = thread::spawn(move || drop(feed.write_all(&input)));
    thread::sleep(Duration::from_secs(3));
    let mut out = Vec::new();
    from.read_to_end(&mut out).expect("readable output");
    feeder.join().expect("the feeder");
    let end = child.wait().expect("an end");
    ensure(end.success(), || format!("ended with {}", end))?;
    ensure(out == right, || format!("{} bytes of {} came", out.len(), right.len()))
}

/// An input that does not wait, and comes late and in two pieces.
fn slow_writer() -> Verdict {
    let (from, mut to) = io::pipe().expect("a pipe");
    not_waiting(&from);
    let child = Command::new("./units").stdin(Stdio::from(from)).stdout(Stdio::piped()).stderr(Stdio::piped()).spawn().expect("the lister");
    for piece in ["5;0,1;1", ",1\n7;0,1;1,1\n"] {
        thread::sleep(Duration::from_secs(1));
        to.write_all(piece.as_bytes()).expect("room");
    }
    drop(to);
    ends(child.wait_with_output().expect("an end"), 0, b"5;0,1;1,1;1;1;4,1,1;2,1;4,1\nrefused 2\n", "")
}

/// Answers of heavy lines come one by one: the first is there while the input is still open and most lines are not answered.
fn first_answer() -> Verdict {
    let line = "5;1,4,1,1;1,3,2,1\n";
    let mut child = Command::new("./units").stdin(Stdio::piped()).stdout(Stdio::piped()).spawn().expect("the lister");
    let mut to = child.stdin.take().expect("its input");
    to.write_all(line.repeat(500).as_bytes()).expect("room");
    let mut first = [0; 16];
    let from = child.stdout.as_mut().expect("its output");
    let come = from.read_exact(&mut first);
    child.kill().expect("a signal");
    child.wait().expect("an end");
    ensure(come.is_ok() && first.starts_with(b"5;1,4,1,1;1,3,2,"), || "no answer came before the input's end".into())
}

pub fn all() -> (usize, usize) {
    let mut t = Tally::new();
    let one = "printf '5;0,1;1,1\\n' | ./units";
    let answer = b"5;0,1;1,1;1;1;4,1,1;2,1;4,1\n";
    t.count(|| "a full disk".into(), ends(shell(&format!("{} > /dev/full", one)), 1, b"", "units: standard output: No space left"));
    t.count(|| "a directory".into(), ends(shell("./units < tests"), 1, b"", "units: standard input: Is a directory"));
    t.count(|| "no input".into(), ends(shell("./units <&-"), 1, b"", "units: standard input:"));
    t.count(|| "no output".into(), ends(shell(&format!("{} >&-", one)), 1, b"", "units: standard output:"));
    t.count(|| "the program itself without input".into(), ends(shell("tests/machine target/bin/units <&-"), 0, b"", "units: standard input: Bad file"));
    t.count(|| "a line not read to its end".into(), ends(broken_behind(b"5;0,1;1,1\n5;0,1"), 1, answer, "units: standard input: Connection reset"));
    t.count(|| "a line read to the input's end".into(), ends(shell("printf '5;0,1;1,1\\n5;0,1' | ./units"), 0, &[&answer[..], b"refused 12\n"].concat(), ""));
    let closed = "yes '5;0,1;1,1' | ./units | head -n 1 > /dev/null; echo ${PIPESTATUS[1]}";
    t.count(|| "a closed pipe".into(), ends(shell(closed), 0, b"141\n", ""));
    let deaf = format!("trap '' PIPE; {} > >(exec <&-; sleep 1)", "sleep 0.5; printf '5;0,1;1,1\\n' | ./units");
    t.count(|| "a closed pipe, the signal ignored".into(), ends(shell(&deaf), 1, b"", "units: standard output: Broken pipe"));
    t.count(|| "an argument".into(), ends(shell("./units fields.txt"), 2, b"", "usage: units"));
    let read = |name: &str| fs::read(format!("examples/{}", name)).expect("an example").repeat(1250);
    t.count(|| "a reader that is slow".into(), slow_reader(&read("fields.txt"), &read("fields.out")));
    t.count(|| "a writer that is slow".into(), slow_writer());
    t.count(|| "the first of 500 answers".into(), first_answer());
    t.count(|| "a signal".into(), ends(shell("./units < <(sleep 5) & sleep 1; kill $!; wait $!; echo $?"), 0, b"143\n", ""));
    let link = std::env::temp_dir().join(format!("units-{}", std::process::id()));
    let here = std::env::current_dir().expect("a folder");
    symlink(here.join("units"), &link).expect("a link");
    let linked = Command::new(&link).current_dir("/").stdin(File::open("examples/fields.txt").expect("an example")).output().expect("the lister");
    fs::remove_file(&link).expect("a link");
    t.count(|| "through a link".into(), ends(linked, 0, &fs::read("examples/fields.out").expect("an example"), ""));
    // Both find the program older than its sources: one builds, the other waits.
    let twice = "touch crates.txt; for i in 1 2; do ./units < examples/fields.txt 2> /dev/null & done; wait";
    t.count(|| "two starts before a build".into(), ends(shell(twice), 0, &fs::read("examples/fields.out").expect("an example").repeat(2), ""));
    t.done("doors")
}
