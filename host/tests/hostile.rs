//! The largest records: taken ones, and ones made to cost the checker as much as can be.

mod common;

use common::Rig;
use host::baseline::{self, WORK};
use host::calls::{Call, Reply};
use host::clock::seconds;
use host::fields::{field, Layout};
use host::foreign::{Cut, Draft};
use host::{Answer, Noise};
use std::hint::black_box;
use std::time::Instant;

const MOST_PAIRS: usize = 523_776;

/// Compares the check of a record, and says how long the two took together.
fn check(rig: &mut Rig, what: &str, draft: &Draft) -> Answer {
    let record = draft.bytes();
    let start = Instant::now();
    let reply = rig.compare_once(Call::Check, &record, WORK, 0);
    println!("{what}: {reply:?} in {:?}", start.elapsed());
    match reply {
        Reply::Answer(answer) => answer,
        Reply::Part(_) => unreachable!("a check answers"),
    }
}

/// The parts of a record of 1,024 holes.
fn full(rig: &mut Rig, layout: Layout, a: u8, b: u8) -> Draft {
    let list = field(layout, 1_024, &mut rig.noise);
    let record = baseline::build(&list, a.into(), b.into(), WORK, usize::MAX);
    Draft::of_record(&record.expect("a field within the limits"))
}

fn refused(number: u64, value: u64) -> Answer {
    Answer {
        number,
        first: value,
        ..Answer::default()
    }
}

/// One big pair over and over: the covering is given up at the first doubled cell.
#[test]
fn one_big_pair_over_and_over() {
    let mut rig = Rig::new(21);
    let mut draft = full(&mut rig, Layout::Uniform, 1, 8);
    let pair = draft.pairs[0];
    draft.pairs = vec![pair; MOST_PAIRS];
    let answer = check(&mut rig, "one pair over and over", &draft);
    assert_eq!(answer.number, 14);
}

/// The largest record is taken; without the pair of its last two holes, the search goes through every row.
#[test]
fn the_largest_record_and_its_last_two_holes() {
    let mut rig = Rig::new(22);
    let mut draft = full(&mut rig, Layout::Leaning, 64, 1);
    assert_eq!(draft.pairs.len(), MOST_PAIRS);
    let taken = check(&mut rig, "the largest record", &draft);
    assert_eq!((taken.number, taken.second), (0, MOST_PAIRS as u64));
    let last = draft.pairs.iter().position(|&[p, q]| {
        let (p, q) = (draft.nodes[usize::from(p)], draft.nodes[usize::from(q)]);
        p[1].min(q[1]) == 1_022
    });
    draft
        .pairs
        .remove(last.expect("a pair of the last two holes"));
    let answer = check(&mut rig, "without the last two holes", &draft);
    assert_eq!(answer, refused(14, 1_024 * 1_022 + 1_023));
}

/// Trees as deep as trees can be, up to 1,024 holes.
#[test]
fn the_deepest_trees() {
    let mut rig = Rig::new(23);
    for (layout, n, a, b) in [(Layout::Line, 400, 1, 8), (Layout::Uniform, 1_024, 3, 1)] {
        let list = field(layout, n, &mut rig.noise);
        let mut draft = Draft::new(&list, a, b, Cut::Caterpillar, &mut rig.noise);
        let taken = check(&mut rig, "a caterpillar", &draft);
        assert_eq!(taken.number, 0);
        let pair = draft.pairs[1];
        draft.pairs[0] = pair;
        let answer = check(&mut rig, "with a pair in place of another", &draft);
        assert_eq!(answer.number, 14);
    }
}

/// The counts just above the limits.
#[test]
fn counts_above_the_limits() {
    let mut rig = Rig::new(24);
    let mut draft = full(&mut rig, Layout::Leaning, 64, 1);
    draft.pairs.push(draft.pairs[0]);
    let answer = check(&mut rig, "a pair too many", &draft);
    assert_eq!(answer, refused(9, MOST_PAIRS as u64 + 1));
    draft.holes.push([255; 4]);
    let answer = check(&mut rig, "a hole too many", &draft);
    assert_eq!(answer, refused(3, 1_025));
}

/// How many times as long the library checks one record as another, the least of a few turns each.
fn times_as_long(one: &Draft, other: &Draft) -> f64 {
    let records = [one.bytes(), other.bytes()];
    let mut work = vec![0; WORK];
    let mut least = [f64::INFINITY; 2];
    for _ in 0..5 {
        for (record, least) in records.iter().zip(&mut least) {
            let time = seconds(|| _ = black_box(host::check(record, &mut work)));
            *least = least.min(time);
        }
    }
    least[0] / least[1]
}

/// No record costs more than 20 times an honest one of as many pairs, whatever it says.
#[test]
fn no_record_is_slow() {
    let mut rig = Rig::new(25);
    let honest = full(&mut rig, Layout::Leaning, 64, 1);
    assert_eq!(honest.pairs.len(), MOST_PAIRS);
    let mut hostile = |what: &str, draft: &Draft, number: u64| {
        assert_eq!(check(&mut rig, what, draft).number, number, "{what}");
        let share = draft.pairs.len() as f64 / MOST_PAIRS as f64;
        let times = times_as_long(draft, &honest) / share;
        println!("{what}: {times:.1} times an honest record");
        assert!(times < 20.0, "{what}: {times:.1} times an honest record");
    };

    let mut noise = Noise(26);
    let mut one_pair = Draft::of_record(&uniform(1, 8, &mut noise));
    one_pair.pairs = vec![one_pair.pairs[0]; MOST_PAIRS];
    hostile("one big pair over and over", &one_pair, 14);

    let mut last = honest.clone();
    let of_last_two = last.pairs.iter().position(|pair| {
        let hole = |node: u16| last.nodes[usize::from(node)][1];
        hole(pair[0]).min(hole(pair[1])) == 1_022
    });
    last.pairs
        .remove(of_last_two.expect("a pair of the last two holes"));
    hostile("every row good but the last", &last, 14);

    let mut doubled = honest.clone();
    for k in (1..MOST_PAIRS).step_by(MOST_PAIRS / 64) {
        doubled.pairs[k] = doubled.pairs[k - 1];
    }
    hostile("a doubled pair in every block", &doubled, 14);

    let list = field(Layout::Uniform, 1_024, &mut noise);
    let mut deep = Draft::new(&list, 64, 1, Cut::Caterpillar, &mut noise);
    hostile("a tree 1,023 deep", &deep, 0);
    deep.pairs[0] = deep.pairs[1];
    hostile("a tree 1,023 deep with a doubled pair", &deep, 14);
}

/// Holes that all fall into one bucket where repeats are looked for (37 x + y is a multiple of 2,039), so that each is compared with every other: no 20
/// times the cost of the same field turned over, whose holes are spread.
#[test]
fn holes_in_one_bucket() {
    let mut rig = Rig::new(27);
    let draft = |turned: bool| {
        let places = (0..1_024u32).map(|x| {
            let y = (2_039 - 37 * x % 2_039) % 2_039;
            [x, if turned { 2_038 - y } else { y }]
        });
        let list: Vec<u8> = places
            .flatten()
            .flat_map(|c| (c as u16).to_be_bytes())
            .collect();
        let record = baseline::build(&list, 3, 1, WORK, usize::MAX);
        Draft::of_record(&record.expect("a field within the limits"))
    };
    let (together, spread) = (draft(false), draft(true));
    let answer = check(&mut rig, "holes in one bucket", &together);
    assert_eq!(answer.number, 0);
    let times = times_as_long(&together, &spread);
    println!("holes in one bucket: {times:.1} times the field turned over");
    assert!(times < 20.0, "{times:.1} times the field turned over");
}

/// The record of a uniform field of 1,024 holes.
fn uniform(a: u64, b: u64, noise: &mut Noise) -> Vec<u8> {
    let list = field(Layout::Uniform, 1_024, noise);
    baseline::build(&list, a, b, WORK, usize::MAX).expect("a field within the limits")
}
