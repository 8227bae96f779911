//! The press controller's program in C: compiled without a warning, run, and run under valgrind.

use host::baseline::{self, WORK};
use host::fields::{field, Layout};
use host::Noise;
use std::path::{Path, PathBuf};
use std::process::{Command, Output};
use std::sync::OnceLock;

/// A place for the test's files.
fn place(name: &str) -> PathBuf {
    Path::new(env!("CARGO_TARGET_TMPDIR")).join(name)
}

/// The compiled program.
fn controller() -> &'static Path {
    static PROGRAM: OnceLock<PathBuf> = OnceLock::new();
    PROGRAM.get_or_init(|| {
        let (host, program) = (Path::new(env!("CARGO_MANIFEST_DIR")), place("controller"));
        let done = Command::new(std::env::var_os("CC").unwrap_or("cc".into()))
            .args(["-std=c11", "-Wall", "-Wextra", "-Werror", "-O2", "-I"])
            .arg(host.join("../include"))
            .arg(host.join("controller.c"))
            .arg(host.join("../crates/press/out/libpress.a"))
            .arg("-o")
            .arg(&program)
            .status();
        assert!(done.expect("a C compiler").success());
        program
    })
}

/// The coordinate list as the controller reads it.
fn text(list: &[u8]) -> String {
    list.chunks_exact(4)
        .map(|c| {
            let (x, y) = (
                u16::from_be_bytes([c[0], c[1]]),
                u16::from_be_bytes([c[2], c[3]]),
            );
            format!("{x} {y}\n")
        })
        .collect()
}

/// Runs the controller over a field, alone or under valgrind.
fn run(valgrind: bool, name: &str, text: &str, a: &str, b: &str) -> (Output, PathBuf) {
    let (field, record) = (
        place(&format!("{name}.field")),
        place(&format!("{name}.record")),
    );
    std::fs::write(&field, text).expect("a field is written");
    let _ = std::fs::remove_file(&record);
    let mut command = Command::new(if valgrind {
        Path::new("valgrind")
    } else {
        controller()
    });
    if valgrind {
        command.args(["-q", "--error-exitcode=99", "--leak-check=full"]);
        command.arg(controller());
    }
    let output = command
        .arg(&field)
        .args([a, b])
        .arg(&record)
        .output()
        .expect("valgrind is installed");
    (output, record)
}

/// What a run printed and how it ended.
fn said(output: &Output) -> (String, String, Option<i32>) {
    let text = |bytes: &[u8]| String::from_utf8_lossy(bytes).into_owned();
    (
        text(&output.stdout),
        text(&output.stderr),
        output.status.code(),
    )
}

/// A field that is taken: the verdict, and the file to the byte.
fn taken(valgrind: bool, name: &str, list: &[u8], a: u64, b: u64) {
    let expected = baseline::build(list, a, b, WORK, usize::MAX).expect("a field within limits");
    let (output, record) = run(valgrind, name, &text(list), &a.to_string(), &b.to_string());
    let (n, m) = (list.len() / 4, (expected.len() - 6 - 3 * list.len()) / 4);
    let verdict = format!("points {n}\npairs {m}\n");
    assert_eq!(said(&output), (verdict, String::new(), Some(0)), "{name}");
    assert_eq!(std::fs::read(record).expect("a record"), expected, "{name}");
}

/// A field that is refused: only the refusal, and no file.
fn refused(valgrind: bool, name: &str, text: &str, a: &str, b: &str, verdict: &str) {
    let (output, record) = run(valgrind, name, text, a, b);
    let printed = (format!("refused {verdict}\n"), String::new(), Some(1));
    assert_eq!(said(&output), printed, "{name}");
    assert!(!record.exists(), "{name}");
}

/// Trouble: one line, and nothing printed.
fn trouble(name: &str, text: &str, a: &str, b: &str) {
    let (output, record) = run(false, name, text, a, b);
    let (printed, complaint, code) = said(&output);
    assert_eq!((printed.as_str(), code), ("", Some(2)), "{name}");
    assert_eq!(complaint.matches('\n').count(), 1, "{name}: {complaint}");
    assert!(!record.exists(), "{name}");
}

const P1: [u8; 8] = [0, 0, 0, 0, 0, 10, 0, 0];

#[test]
fn fields_that_are_taken() {
    let mut noise = Noise(41);
    taken(false, "p1", &P1, 3, 1);
    taken(false, "one-hole", &[0, 9, 0, 9], 1, 8);
    for layout in [Layout::Uniform, Layout::Clustered, Layout::Line] {
        let list = field(layout, 1_024, &mut noise);
        taken(false, layout.name(), &list, 3, 1);
    }
    let list = field(Layout::Leaning, 1_024, &mut noise);
    taken(false, "longest", &list, 64, 1);
}

#[test]
fn fields_that_are_refused() {
    let mut noise = Noise(42);
    refused(false, "twice", "5 5\n7 7\n5 5\n", "3", "1", "6 2");
    refused(false, "none", "", "3", "1", "2 0");
    refused(false, "ratio", "1 1\n", "256", "1", "4 0");
    refused(false, "wide", "1 1\n", "1", "18446744073709551615", "4 0");
    let list = field(Layout::Grid, 1_025, &mut noise);
    refused(false, "many", &text(&list), "3", "1", "3 1025");
}

#[test]
fn files_and_lines_that_are_no_field() {
    let lines = [
        "1\n",
        "1 2 3\n",
        "65536 0\n",
        "0 65536\n",
        "-1 0\n",
        "a b\n",
        "\n",
        " 1 2\n",
        "1  2\n",
        "1 2\n\n3 4\n",
        "1,2\n",
        "1 2\x003\n",
        "1 00000000000000000000000000000000000\n",
    ];
    for (i, line) in lines.into_iter().enumerate() {
        trouble(&format!("line-{i}"), line, "3", "1");
    }
    trouble("no-a", "1 2\n", "", "1");
    trouble("word-a", "1 2\n", "3x", "1");
    trouble("long-b", "1 2\n", "3", "18446744073709551616");
    trouble("lines", &"1 2\n".repeat(65_537), "3", "1");
    let missing = Command::new(controller())
        .arg(place("no-such.field"))
        .args(["3", "1"])
        .arg(place("no-such.record"))
        .output()
        .expect("the controller runs");
    let (printed, complaint, code) = said(&missing);
    assert_eq!((printed.as_str(), code), ("", Some(2)));
    assert_eq!(complaint.matches('\n').count(), 1, "{complaint}");
}

/// A record that cannot be filed.
#[test]
fn a_place_that_cannot_be_written() {
    let field = place("unfiled.field");
    std::fs::write(&field, text(&P1)).expect("a field is written");
    let output = Command::new(controller())
        .arg(field)
        .args(["3", "1"])
        .arg(place("no-such-folder").join("record"))
        .output()
        .expect("the controller runs");
    let (printed, complaint, code) = said(&output);
    assert_eq!((printed.as_str(), code), ("", Some(2)));
    assert_eq!(complaint.matches('\n').count(), 1, "{complaint}");
}

/// No byte is read or written that is not the program's, and nothing depends on bytes that were never set.
#[test]
fn under_valgrind() {
    let mut noise = Noise(43);
    taken(true, "valgrind-p1", &P1, 3, 1);
    refused(true, "valgrind-twice", "5 5\n7 7\n5 5\n", "3", "1", "6 2");
    refused(true, "valgrind-ratio", "1 1\n", "65", "1", "4 0");
    let list = field(Layout::Clustered, 120, &mut noise);
    taken(true, "valgrind-clustered", &list, 9, 4);
}
