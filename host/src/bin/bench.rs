//! The library against the baseline on the same fields, in one process: times, and with `--instructions` the instructions that valgrind counts.
//!
//!     bench                     fields of 1,024 holes, then growing fields
//!     bench growth              growing fields alone
//!     bench ... --instructions  with instructions
//!     bench one CALL LAYOUT N A B library|baseline|none
//!                               one call alone, or only what comes before it: what valgrind runs

use host::baseline::{self, WORK};
use host::calls::{baseline, library, Call};
use host::clock::{processor_seconds, seconds};
use host::fields::{field, Layout};
use host::Noise;
use std::hint::black_box;
use std::process::{Command, ExitCode};

const LAYOUTS: [Layout; 4] = [
    Layout::Uniform,
    Layout::Clustered,
    Layout::Grid,
    Layout::Line,
];
const RATIOS: [u64; 4] = [2, 3, 9, 64];
const CALLS: [&str; 5] = ["build", "check", "closest", "pitch", "links"];

/// Instructions are counted where the library takes less than this: valgrind is some fifty times slower.
const COUNTED: f64 = 0.4;

/// A field at a ratio: what every call of a row is given.
#[derive(Clone)]
struct Sheet {
    layout: Layout,
    n: usize,
    a: u64,
    b: u64,
    list: Vec<u8>,
    record: Vec<u8>,
}

impl Sheet {
    fn new(layout: Layout, n: usize, a: u64, b: u64) -> Sheet {
        let list = field(layout, n, &mut Noise(2027));
        let record = baseline::build(&list, a, b, WORK, usize::MAX).expect("a field within limits");
        Sheet {
            layout,
            n,
            a,
            b,
            list,
            record,
        }
    }

    fn pairs(&self) -> usize {
        (self.record.len() - 6 - 12 * self.n) / 4
    }

    /// The call of a name; None where the ratio is too low for the question.
    fn call(&self, name: &str) -> Option<Call> {
        let (a, b) = (self.a, self.b);
        match name {
            "build" => Some(Call::Build { a, b }),
            "check" => Some(Call::Check),
            "closest" if a > 2 * b => Some(Call::Closest),
            "pitch" if a > 2 * b => Some(Call::Pitch { p: 1 }),
            "links" if a > 4 * b => Some(Call::Links),
            _ => None,
        }
    }

    fn input(&self, call: Call) -> &[u8] {
        match call {
            Call::Build { .. } => &self.list,
            _ => &self.record,
        }
    }
}

/// Buffers to lend to the library, or lengths for the baseline.
struct Buffers {
    work: Vec<u8>,
    out: Vec<u8>,
}

impl Buffers {
    fn new(sheet: &Sheet) -> Buffers {
        Buffers {
            work: vec![1; WORK],
            out: vec![1; sheet.record.len()],
        }
    }

    fn run_library(&mut self, sheet: &Sheet, call: Call) {
        let input = black_box(sheet.input(call));
        black_box(library(call, input, &mut self.work, &mut self.out));
    }

    /// Runs the baseline, which takes as many bytes for its cells as a work area of the given length leaves free.
    fn run_baseline(&self, sheet: &Sheet, call: Call, work: usize) {
        let input = black_box(sheet.input(call));
        black_box(baseline(call, input, work, self.out.len()));
    }
}

/// Seconds, or instructions, of the library's call and of the baseline's, the ratio of the two, and the call's share of the library's check of the same
/// record.
#[derive(Clone, Copy)]
struct Costs {
    library: f64,
    baseline: f64,
    ratio: f64,
    share: f64,
}

fn median(values: impl Iterator<Item = f64>) -> f64 {
    let mut sorted: Vec<f64> = values.collect();
    sorted.sort_by(f64::total_cmp);
    sorted[sorted.len() / 2]
}

/// Medians over turns of library, baseline and check: 201, or fewer that take two seconds, but three at least. A ratio is taken within a turn, since the
/// machine's speed changes between turns; and every other turn goes the other way round, since what a run leaves in the processor's caches is the next
/// one's.
fn time(sheet: &Sheet, call: Call, work: usize) -> Costs {
    let mut buffers = Buffers::new(sheet);
    let mut turns: Vec<[f64; 3]> = Vec::new();
    let start = processor_seconds();
    while turns.len() < 3 || (turns.len() < 201 && processor_seconds() - start < 2.0) {
        let mut turn = [0.0; 3];
        for place in 0..3 {
            let which = if turns.len() % 2 == 0 {
                place
            } else {
                2 - place
            };
            turn[which] = seconds(|| match which {
                0 => buffers.run_library(sheet, call),
                1 => buffers.run_baseline(sheet, call, work),
                _ => buffers.run_library(sheet, Call::Check),
            });
        }
        turns.push(turn);
    }
    let of = |part: fn(&[f64; 3]) -> f64| median(turns.iter().map(part));
    Costs {
        library: of(|turn| turn[0]),
        baseline: of(|turn| turn[1]),
        ratio: of(|turn| turn[0] / turn[1]),
        share: of(|turn| turn[0] / turn[2]),
    }
}

/// All instructions of a run of this program that makes one call, or none.
fn instructions(sheet: &Sheet, name: &str, side: &str) -> Option<f64> {
    let done = Command::new("valgrind")
        .args(["--tool=callgrind", "--callgrind-out-file=/dev/null"])
        .arg(std::env::current_exe().ok()?)
        .args(["one", name, sheet.layout.name()])
        .args([
            sheet.n.to_string(),
            sheet.a.to_string(),
            sheet.b.to_string(),
        ])
        .arg(side)
        .output()
        .ok()?;
    let said = String::from_utf8_lossy(&done.stderr);
    let line = said.lines().find(|line| line.contains("Collected : "))?;
    line.rsplit(' ').next()?.parse().ok()
}

/// The instructions of one call: a run that makes it less a run that makes none.
fn count(sheet: &Sheet, name: &str) -> Option<Costs> {
    let none = instructions(sheet, name, "none")?;
    let of = |name, side| Some(instructions(sheet, name, side)? - none);
    let (library, baseline) = (of(name, "library")?, of(name, "baseline")?);
    Some(Costs {
        library,
        baseline,
        ratio: library / baseline,
        share: library / of("check", "library")?,
    })
}

/// The columns of a row that instructions fill, in thousands.
fn counted(sheet: &Sheet, name: &str, times: Costs) -> String {
    let counts = (times.library < COUNTED)
        .then(|| count(sheet, name))
        .flatten();
    match counts {
        Some(costs) => format!(
            " {:.0} | {:.0} | {:.2} | {:.2} |",
            costs.library / 1e3,
            costs.baseline / 1e3,
            costs.ratio,
            costs.share
        ),
        None => " - | - | - | - |".to_string(),
    }
}

fn head(columns: &[&str]) {
    println!("| {} |", columns.join(" | "));
    println!("|{}", "---|".repeat(columns.len()));
}

const COUNTS: [&str; 4] = [
    "library, thousand instructions",
    "baseline, thousand instructions",
    "library / baseline",
    "library's call / its check",
];

/// A row for every call, layout and ratio.
fn table(with_instructions: bool) {
    println!("Fields of 1,024 holes, medians over turns, ratios within a turn, processor time of the thread.\n");
    let mut columns = vec![
        "call",
        "field",
        "ratio",
        "pairs",
        "library, ms",
        "baseline, ms",
        "library / baseline",
        "library's call / its check",
    ];
    if with_instructions {
        columns.extend(COUNTS);
    }
    head(&columns);
    let mut costs = Vec::new();
    for layout in LAYOUTS {
        for a in RATIOS {
            let sheet = Sheet::new(layout, 1_024, a, 1);
            costs.extend(rows(&sheet, with_instructions));
            costs.push((WHOLE, time(&sheet, Call::Check, 2 * sheet.n * sheet.n)));
        }
    }
    summary(&costs);
}

/// The checker against a baseline that has a byte for each cell at once.
const WHOLE: &str = "check, against a baseline with n² bytes";

/// The mean and the greatest ratio of each call: to the baseline, and to the check.
fn summary(rows: &[(&str, Costs)]) {
    println!();
    head(&[
        "call",
        "rows",
        "mean library / baseline",
        "greatest",
        "mean library's call / its check",
        "greatest",
    ]);
    for name in CALLS.into_iter().chain([WHOLE]) {
        let of_call = || rows.iter().filter(|row| row.0 == name).map(|row| row.1);
        let count = of_call().count();
        let mean = |part: fn(Costs) -> f64| of_call().map(part).sum::<f64>() / count as f64;
        let most = |part: fn(Costs) -> f64| of_call().map(part).fold(0.0, f64::max);
        println!(
            "| {name} | {count} | {:.2} | {:.2} | {:.2} | {:.2} |",
            mean(|costs| costs.ratio),
            most(|costs| costs.ratio),
            mean(|costs| costs.share),
            most(|costs| costs.share)
        );
    }
}

/// The rows of one field at one ratio.
fn rows(sheet: &Sheet, with_instructions: bool) -> Vec<(&'static str, Costs)> {
    let mut costs = Vec::new();
    for name in CALLS {
        let Some(call) = sheet.call(name) else {
            continue;
        };
        let times = time(sheet, call, WORK);
        println!(
            "| {name} | {} | {}/{} | {} | {:.3} | {:.3} | {:.2} | {:.2} |{}",
            sheet.layout.name(),
            sheet.a,
            sheet.b,
            sheet.pairs(),
            1e3 * times.library,
            1e3 * times.baseline,
            times.ratio,
            times.share,
            if with_instructions {
                counted(sheet, name, times)
            } else {
                String::new()
            }
        );
        costs.push((name, times));
    }
    costs
}

/// How build and check grow with the field: uniform fields at 3/1.
fn growth(with_instructions: bool) {
    println!("\nUniform fields at 3/1. The growth is the library's time against that of half the holes.\n");
    let mut columns = vec![
        "call",
        "holes",
        "pairs",
        "library, ms",
        "baseline, ms",
        "library / baseline",
        "growth",
    ];
    if with_instructions {
        columns.extend(COUNTS);
    }
    head(&columns);
    for name in ["build", "check"] {
        let mut before = None;
        for n in [128, 256, 512, 1_024] {
            let sheet = Sheet::new(Layout::Uniform, n, 3, 1);
            if let Some(call) = sheet.call(name) {
                before = Some(growth_row(&sheet, name, call, before, with_instructions));
            }
        }
    }
}

/// One row of growth; gives the library's time.
fn growth_row(
    sheet: &Sheet,
    name: &str,
    call: Call,
    before: Option<f64>,
    with_instructions: bool,
) -> f64 {
    let times = time(sheet, call, WORK);
    println!(
        "| {name} | {} | {} | {:.3} | {:.3} | {:.2} | {} |{}",
        sheet.n,
        sheet.pairs(),
        1e3 * times.library,
        1e3 * times.baseline,
        times.ratio,
        before.map_or("-".to_string(), |b| format!("{:.2}", times.library / b)),
        if with_instructions {
            counted(sheet, name, times)
        } else {
            String::new()
        }
    );
    times.library
}

/// One call alone, for valgrind: all sides but the call itself do the same.
fn one(words: &[&str]) -> Option<()> {
    let [name, layout, n, a, b, side] = words else {
        return None;
    };
    let sheet = Sheet::new(
        Layout::named(layout)?,
        n.parse().ok()?,
        a.parse().ok()?,
        b.parse().ok()?,
    );
    let call = sheet.call(name)?;
    let mut buffers = Buffers::new(&sheet);
    match *side {
        "library" => buffers.run_library(&sheet, call),
        "baseline" => buffers.run_baseline(&sheet, call, WORK),
        "none" => (),
        _ => return None,
    }
    Some(())
}

fn main() -> ExitCode {
    let words: Vec<String> = std::env::args().skip(1).collect();
    let mut words: Vec<&str> = words.iter().map(String::as_str).collect();
    let with_instructions = words.last() == Some(&"--instructions");
    words.truncate(words.len() - usize::from(with_instructions));
    match &words[..] {
        [] => {
            table(with_instructions);
            growth(with_instructions);
        }
        ["growth"] => growth(with_instructions),
        ["one", rest @ ..] if one(rest).is_some() => (),
        _ => {
            eprintln!("usage: bench [growth] [--instructions]");
            return ExitCode::from(2);
        }
    }
    ExitCode::SUCCESS
}
