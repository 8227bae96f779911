//! The cases made outside the project: through the library, with garbage in the work area and the output before each call, and through the
//! baseline.

use host::baseline::program;
use host::calls::{baseline, library, Call, Reply};
use host::sha256::sha256;
use host::{Answer, Noise, Part};
use std::io::Write;
use std::process::{Command, Stdio};

const SMALL: &str = include_str!("../vectors/base-small.txt");
const MEDIUM: &str = include_str!("../vectors/base-medium.txt");

fn bytes(hex: &str) -> Vec<u8> {
    if hex == "-" {
        return Vec::new();
    }
    (0..hex.len() / 2)
        .map(|i| u8::from_str_radix(&hex[2 * i..2 * i + 2], 16).unwrap())
        .collect()
}

/// Whether these are the bytes that a case gives, in hex or by their digest.
fn is_output(found: &[u8], said: &str) -> bool {
    match said.strip_prefix("sha256:") {
        None => found == bytes(said),
        Some(rest) => {
            let (length, digest) = rest.split_once(':').unwrap();
            found.len() == length.parse::<usize>().unwrap()
                && sha256(found)[..] == bytes(digest)[..]
        }
    }
}

/// What a case's words give back.
fn reply(words: &str) -> Reply {
    let word: Vec<&str> = words.split(' ').collect();
    let value = |i: usize| word.get(i).map_or(0, |w| w.parse().unwrap());
    let (number, first, second, third) = match word[0] {
        "refused" => (value(1), value(2), 0, 0),
        "taken" | "wrote" | "closest" => (0, value(1), value(2), value(3)),
        "yes" => (0, 1, 0, 0),
        "no" => (0, 0, 0, 0),
        "part" => {
            let (start, length) = (value(1), value(2));
            return Reply::Part(Part { start, length });
        }
        other => panic!("no such answer: {other}"),
    };
    Reply::Answer(Answer {
        number,
        first,
        second,
        third,
    })
}

/// A case of any call but the program.
struct Case<'a> {
    line: &'a str,
    call: Call,
    input: Vec<u8>,
    work: usize,
    room: usize,
    reply: Reply,
    output: &'a str,
}

impl<'a> Case<'a> {
    fn new(line: &'a str) -> Case<'a> {
        let field: Vec<&str> = line.split('|').collect();
        let number: Vec<u64> = field[2]
            .split(' ')
            .map(|word| word.parse().unwrap())
            .collect();
        let (call, lengths) = match (field[0], &number[..]) {
            ("build", [a, b, lengths @ ..]) => (Call::Build { a: *a, b: *b }, lengths),
            ("pitch", [p, lengths @ ..]) => (Call::Pitch { p: *p }, lengths),
            ("check", lengths) => (Call::Check, lengths),
            ("closest", lengths) => (Call::Closest, lengths),
            ("links", lengths) => (Call::Links, lengths),
            ("holes", lengths) => (Call::Holes, lengths),
            ("nodes", lengths) => (Call::Nodes, lengths),
            ("pairs", lengths) => (Call::Pairs, lengths),
            (other, _) => panic!("no such call: {other}"),
        };
        assert_eq!(lengths.len(), 1 + usize::from(call.writes()), "{line:.200}");
        Case {
            line,
            call,
            input: bytes(field[1]),
            work: lengths[0] as usize,
            room: lengths.get(1).map_or(0, |&room| room as usize),
            reply: reply(field[3]),
            output: field[4],
        }
    }

    /// Compares what a call gave and the output that it left with the case's.
    fn compare(&self, reply: Reply, out: &[u8]) {
        let line = self.line;
        assert_eq!(reply, self.reply, "{line:.200}");
        let found = match reply {
            Reply::Part(part) => &self.input[part.start as usize..][..part.length as usize],
            Reply::Answer(_) => out,
        };
        assert!(is_output(found, self.output), "the output: {line:.200}");
    }

    /// Runs the case through the library.
    fn run_library(&self, noise: &mut Noise) {
        let line = self.line;
        let before = self.input.clone();
        let (mut work, mut out) = (noise.garbage(self.work), noise.garbage(self.room));
        let reply = library(self.call, &self.input, &mut work, &mut out);
        self.compare(reply, &out);
        assert!(
            work.iter().all(|&b| b == 0),
            "the work area is not all zero: {line:.200}"
        );
        assert_eq!(self.input, before, "the input was written to: {line:.200}");
    }

    fn run_baseline(&self) {
        let (reply, out) = baseline(self.call, &self.input, self.work, self.room);
        self.compare(reply, &out);
    }
}

fn lines() -> impl Iterator<Item = &'static str> {
    SMALL
        .lines()
        .chain(MEDIUM.lines())
        .filter(|line| !line.is_empty() && !line.starts_with('#'))
}

/// The cases of the program.
fn program_lines() -> Vec<&'static str> {
    lines()
        .filter(|line| line.starts_with("program|"))
        .collect()
}

/// The cases of all other calls.
fn cases() -> Vec<Case<'static>> {
    lines()
        .filter(|line| !line.starts_with("program|"))
        .map(Case::new)
        .collect()
}

#[test]
fn all_cases_through_the_library() {
    let mut noise = Noise(20271);
    let cases = cases();
    assert_eq!(cases.len(), 306, "cases of calls on byte slices");
    cases.iter().for_each(|case| case.run_library(&mut noise));
}

#[test]
fn all_cases_through_the_baseline() {
    let cases = cases();
    assert_eq!(cases.len(), 306, "cases of calls on byte slices");
    cases.iter().for_each(Case::run_baseline);
}

/// What the program verdict prints for an input.
fn verdict(input: &[u8]) -> Vec<u8> {
    let path = concat!(env!("CARGO_MANIFEST_DIR"), "/../crates/verdict/out/verdict");
    let mut child = Command::new(path)
        .stdin(Stdio::piped())
        .stdout(Stdio::piped())
        .spawn()
        .expect("the program, which rt ci builds and rt run in its folder");
    // An input that is too long is not read to its end.
    let _ = child.stdin.take().unwrap().write_all(input);
    let done = child.wait_with_output().unwrap();
    assert!(done.status.success());
    done.stdout
}

/// Runs all cases of the program.
fn run_program(program: fn(&[u8]) -> Vec<u8>) {
    let lines = program_lines();
    assert_eq!(lines.len(), 39, "cases of the program");
    for line in lines {
        let field: Vec<&str> = line.split('|').collect();
        let printed = program(&bytes(field[1]));
        assert!(is_output(&printed, field[4]), "{line:.200}");
        let text = String::from_utf8(printed).unwrap();
        assert_eq!(
            text.trim_end().replace('\n', " / "),
            field[3],
            "{line:.200}"
        );
    }
    // One byte over 65,536 is refusal 17, whatever the bytes are; 65,536 bytes are read as a record.
    assert_eq!(program(&vec![3; 65_537]), b"refused 17 65536\n");
    assert_eq!(program(&vec![3; 200_000]), b"refused 17 65536\n");
    assert_eq!(program(&vec![3; 65_536]), b"refused 9 771\n");
}

#[test]
fn all_cases_of_the_program() {
    run_program(verdict);
}

#[test]
fn all_cases_of_the_program_through_the_baseline() {
    run_program(program);
}
