//! The library against the baseline over thousands of random, foreign and damaged inputs; and the baseline against the most naive reading of
//! document 01.

mod common;

use common::naive::Sheet;
use common::Rig;
use host::baseline::{self, WORK};
use host::calls::{over_records, Call, Reply};
use host::fields::{crowded, field, LAYOUTS};
use host::foreign::{Draft, CUTS};
use host::Noise;

/// Lengths of work areas around the limit.
const WORKS: [usize; 6] = [0, 1, 65_535, 65_536, 65_537, 70_000];

/// Ratios in range, at whole numbers and between them, on both sides of 2 and 4.
const RATIOS: [(u8, u8); 14] = [
    (1, 8),
    (1, 1),
    (2, 1),
    (4, 2),
    (17, 8),
    (9, 4),
    (3, 1),
    (4, 1),
    (32, 8),
    (33, 8),
    (9, 2),
    (9, 1),
    (64, 8),
    (64, 1),
];

/// A coordinate list of any layout.
fn any_field(n: usize, noise: &mut Noise) -> Vec<u8> {
    if noise.once_in(4) {
        return crowded(n, noise);
    }
    let layout = noise.pick(&LAYOUTS);
    field(layout, n, noise)
}

/// A record of the builder's own.
fn built(list: &[u8], (a, b): (u8, u8)) -> Vec<u8> {
    baseline::build(list, a.into(), b.into(), WORK, usize::MAX).expect("a field within the limits")
}

/// A p around the pitch of a record, or any p.
fn any_p(record: &[u8], noise: &mut Noise) -> u64 {
    let least = Sheet::read(record)
        .and_then(|sheet| sheet.closest())
        .map_or(0, |(distance, ..)| (distance as f64).sqrt() as u64);
    match noise.below(8) {
        0 => noise.next(),
        1 => noise.pick(&[0, 1, 65_535, 65_536, 92_681, 92_682, 1 << 32, u64::MAX]),
        _ => (least + noise.below(3)).saturating_sub(1),
    }
}

/// Compares every call over a record.
fn compare_all(rig: &mut Rig, record: &[u8], work: usize) {
    let p = any_p(record, &mut rig.noise);
    let room = match rig.noise.below(4) {
        0 => rig.noise.index(8),
        _ => record.len(),
    };
    for call in over_records(p) {
        rig.compare(call, record, work, room);
    }
}

/// Compares the baseline's check, closest, pitch and links with the naive ones.
fn compare_naive(record: &[u8], noise: &mut Noise) -> bool {
    let taken = baseline::check(record, WORK);
    let sheet = Sheet::read(record);
    let meets = sheet.as_ref().is_some_and(Sheet::meets_rules);
    assert_eq!(taken.is_ok(), meets, "{record:?}");
    let Some(sheet) = sheet else { return false };
    if let Err(refusal) = taken {
        if refusal.number == 14 {
            let (i, j) = sheet.least_uncovered().expect("two holes not covered");
            assert_eq!(refusal.value, (1_024 * i + j) as u64, "{record:?}");
        }
        return false;
    }
    compare_naive_closest(record, &sheet, noise);
    if let Ok(bytes) = baseline::links(record, WORK, usize::MAX) {
        let links: Vec<u8> = sheet
            .links()
            .iter()
            .flat_map(|&(p, q)| [(p as u16).to_be_bytes(), (q as u16).to_be_bytes()])
            .flatten()
            .collect();
        assert_eq!(bytes, links);
    }
    true
}

fn compare_naive_closest(record: &[u8], sheet: &Sheet, noise: &mut Noise) {
    if let Ok(found) = baseline::closest(record, WORK) {
        let (distance, i, j) = sheet.closest().expect("two holes");
        let found = (found.squared_distance, found.i, found.j);
        assert_eq!(found, (distance, i as u64, j as u64));
        let p = any_p(record, noise);
        let wide = u128::from(distance) >= u128::from(p) * u128::from(p);
        assert_eq!(baseline::pitch(record, p, WORK), Ok(wide));
    }
}

/// A small record of n holes.
fn small_record(n: usize, noise: &mut Noise) -> Vec<u8> {
    let list = any_field(n, noise);
    built(&list, noise.pick(&RATIOS))
}

/// All 255 other values of every byte of records of one and two holes.
#[test]
fn every_other_byte_of_the_smallest_records() {
    let mut rig = Rig::new(1);
    for n in [1, 2] {
        let mut record = small_record(n, &mut rig.noise);
        for at in 0..record.len() {
            for change in 1..=255 {
                record[at] ^= change;
                rig.compare(Call::Check, &record, WORK, 0);
                if change.is_power_of_two() {
                    compare_all(&mut rig, &record, WORK);
                }
                compare_naive(&record, &mut rig.noise);
                record[at] ^= change;
            }
        }
    }
    println!("{} calls, {:?}", rig.calls, rig.numbers);
}

/// Some other values of every byte of records of three and four holes.
#[test]
fn other_bytes_of_small_records() {
    let mut rig = Rig::new(2);
    for n in [3, 3, 4, 4, 4, 5] {
        let mut record = small_record(n, &mut rig.noise);
        for at in 0..record.len() {
            let sample = [1, 2, 3, 4, 7, 128, 255, rig.noise.next() as u8];
            for change in sample {
                record[at] ^= change;
                rig.compare(Call::Check, &record, WORK, 0);
                rig.compare(Call::Pairs, &record, WORK, 0);
                compare_naive(&record, &mut rig.noise);
                record[at] ^= change;
            }
        }
    }
    println!("{} calls, {:?}", rig.calls, rig.numbers);
}

/// A foreign record of any tree over any field.
fn foreign(n: usize, noise: &mut Noise) -> Draft {
    let list = any_field(n, noise);
    let (a, b) = noise.pick(&RATIOS);
    let cut = noise.pick(&CUTS);
    Draft::new(&list, a, b, cut, noise)
}

/// Foreign records are taken, whatever their numbering and the order of their pairs.
#[test]
fn foreign_records() {
    let mut rig = Rig::new(3);
    for round in 0..300 {
        let n = 1 + rig.noise.index(if round % 10 == 0 { 60 } else { 12 });
        let record = foreign(n, &mut rig.noise).bytes();
        assert!(compare_naive(&record, &mut rig.noise), "{record:?}");
        compare_all(&mut rig, &record, WORK);
    }
    println!("{} calls, {:?}", rig.calls, rig.numbers);
}

/// Damaged records, foreign and the builder's own: one thing broken, or a few.
#[test]
fn damaged_records() {
    let mut rig = Rig::new(4);
    for round in 0..400 {
        let n = 1 + rig.noise.index(if round % 20 == 0 { 40 } else { 9 });
        let draft = match round % 3 {
            0 => Draft::of_record(&small_record(n, &mut rig.noise)),
            _ => foreign(n, &mut rig.noise),
        };
        for _ in 0..12 {
            let mut broken = draft.clone();
            for _ in 0..1 + rig.noise.index(2) {
                broken.damage(&mut rig.noise);
            }
            let record = broken.bytes();
            rig.compare(Call::Check, &record, WORK, 0);
            compare_naive(&record, &mut rig.noise);
            if rig.noise.once_in(4) {
                compare_all(&mut rig, &record, WORK);
            }
        }
    }
    for number in [0, 4, 6, 9, 11, 13, 14] {
        let times = rig.numbers.get(&number).copied().unwrap_or(0);
        assert!(times >= 20, "{number} was met {times} times");
    }
    println!("{} calls, {:?}", rig.calls, rig.numbers);
}

/// Coverings that are nearly right: pairs doubled, dropped and swapped, with the sum of sizes kept where it can be.
#[test]
fn wrong_coverings() {
    let mut rig = Rig::new(5);
    let mut met = 0;
    for _ in 0..250 {
        let n = 3 + rig.noise.index(22);
        let mut draft = foreign(n, &mut rig.noise);
        for _ in 0..1 + rig.noise.index(3) {
            let m = draft.pairs.len();
            let (p, q) = (rig.noise.index(m), rig.noise.index(m));
            match rig.noise.below(4) {
                0 if m > 1 => drop(draft.pairs.remove(p)),
                1 => draft.pairs.insert(p, draft.pairs[q]),
                2 => draft.pairs[p] = [draft.pairs[q][1], draft.pairs[q][0]],
                _ => draft.pairs[p][0] = draft.pairs[q][0],
            }
        }
        let record = draft.bytes();
        let reply = rig.compare(Call::Check, &record, WORK, 0);
        met += u32::from(matches!(reply, Reply::Answer(answer) if answer.number == 14));
        compare_naive(&record, &mut rig.noise);
    }
    assert!(met >= 100, "refusal 14 was met {met} times");
    println!("{} calls, {:?}", rig.calls, rig.numbers);
}

/// Records cut short at each length and extended, at every length of work area.
#[test]
fn lengths_of_records_and_work_areas() {
    let mut rig = Rig::new(6);
    for n in [1, 2, 3, 5, 8] {
        let record = small_record(n, &mut rig.noise);
        let more = [&record[..], &rig.noise.garbage(9)].concat();
        for length in 0..=more.len() {
            compare_all(&mut rig, &more[..length], WORK);
            let work = rig.noise.pick(&WORKS);
            rig.compare(Call::Check, &more[..length], work, 0);
        }
        for work in WORKS {
            compare_all(&mut rig, &record, work);
            compare_all(&mut rig, &record[..record.len() - 1], work);
        }
    }
    println!("{} calls, {:?}", rig.calls, rig.numbers);
}

/// Bytes of any kind under a head that claims to be a record.
#[test]
fn noise_as_records() {
    let mut rig = Rig::new(7);
    for _ in 0..1_000 {
        let n = 1 + rig.noise.index(6);
        let length = rig.noise.index(90);
        let mut record = rig.noise.garbage(length);
        let head = [3, 1, 0, n as u8];
        let known = rig.noise.index(5).min(length);
        record[..known].copy_from_slice(&head[..known]);
        if rig.noise.once_in(2) && length >= 6 + 4 * n {
            record[4 + 4 * n..][..2].copy_from_slice(&(2 * n as u16 - 1).to_be_bytes());
        }
        rig.compare(Call::Check, &record, WORK, 0);
        rig.compare(Call::Nodes, &record, WORK, 0);
    }
    println!("{} calls, {:?}", rig.calls, rig.numbers);
}

/// Output lengths around what the links need.
#[test]
fn lengths_of_link_lists() {
    let mut rig = Rig::new(8);
    for n in [1, 2, 3, 7, 20] {
        let list = any_field(n, &mut rig.noise);
        for ratio in [(9, 2), (9, 1), (4, 1)] {
            let record = built(&list, ratio);
            let need = record.len() - 6 - 12 * n;
            for room in around(need) {
                for work in WORKS {
                    rig.compare(Call::Links, &record, work, room);
                }
            }
        }
    }
}

/// Lengths around one that is needed.
fn around(need: usize) -> [usize; 8] {
    [
        0,
        1,
        need.saturating_sub(5),
        need.saturating_sub(4),
        need.saturating_sub(1),
        need,
        need + 1,
        need + 100,
    ]
}

/// Larger foreign records, among them trees as deep as trees can be; whole, and with one thing broken.
#[test]
fn large_foreign_records() {
    let mut rig = Rig::new(9);
    for (round, cut) in CUTS.into_iter().cycle().take(9).enumerate() {
        let n = [120, 200, 300][round % 3];
        let list = any_field(n, &mut rig.noise);
        let (a, b) = rig.noise.pick(&RATIOS);
        let draft = Draft::new(&list, a, b, cut, &mut rig.noise);
        assert!(baseline::check(&draft.bytes(), WORK).is_ok());
        compare_all(&mut rig, &draft.bytes(), WORK);
        for _ in 0..4 {
            let mut broken = draft.clone();
            broken.damage(&mut rig.noise);
            rig.compare(Call::Check, &broken.bytes(), WORK, 0);
        }
    }
    println!("{} calls, {:?}", rig.calls, rig.numbers);
}

/// Numbers that a caller may pass for a ratio, in range and out of it.
fn any_ratio(noise: &mut Noise) -> (u64, u64) {
    let out = [0, 65, 256, 257, (1 << 32) + 1, u64::MAX];
    match noise.below(8) {
        0 => (noise.pick(&out), 1 + noise.below(8)),
        1 => (1 + noise.below(64), noise.pick(&[0, 9, 256, 257, u64::MAX])),
        2 => (noise.pick(&out), noise.pick(&out)),
        _ => {
            let (a, b) = noise.pick(&RATIOS);
            (a.into(), b.into())
        }
    }
}

/// The builder over fields of all layouts, ratios in and out of range, repeated holes, odd lengths and every limit.
#[test]
fn builds() {
    let mut rig = Rig::new(10);
    for round in 0..600 {
        let n = rig.noise.index(if round % 20 == 0 { 150 } else { 20 });
        let mut list = any_field(n, &mut rig.noise);
        let (a, b) = any_ratio(&mut rig.noise);
        repeat_holes(&mut list, &mut rig.noise);
        if rig.noise.once_in(8) {
            list.truncate(list.len().saturating_sub(rig.noise.index(4)));
        }
        let need = match baseline::build(&list, a, b, WORK, usize::MAX) {
            Ok(record) => record.len(),
            Err(_) => rig.noise.index(200),
        };
        let room = rig.noise.pick(&around(need));
        let work = match rig.noise.below(8) {
            0 => rig.noise.pick(&WORKS),
            _ => WORK,
        };
        rig.compare(Call::Build { a, b }, &list, work, need);
        rig.compare(Call::Build { a, b }, &list, work, room);
    }
    for number in [0, 1, 2, 4, 5, 6, 7] {
        let times = rig.numbers.get(&number).copied().unwrap_or(0);
        assert!(times >= 5, "{number} was met {times} times");
    }
    println!("{} calls, {:?}", rig.calls, rig.numbers);
}

/// Once in eight, copies some holes over others.
fn repeat_holes(list: &mut [u8], noise: &mut Noise) {
    let n = list.len() / 4;
    if n == 0 || !noise.once_in(8) {
        return;
    }
    for _ in 0..1 + noise.index(3) {
        let from = 4 * noise.index(n);
        list.copy_within(from..from + 4, 4 * noise.index(n));
    }
}

/// What is built is taken, and its sections are the builder's input and lists.
#[test]
fn what_is_built_is_taken() {
    let mut rig = Rig::new(11);
    for _ in 0..150 {
        let n = 1 + rig.noise.index(40);
        let list = any_field(n, &mut rig.noise);
        let record = built(&list, rig.noise.pick(&RATIOS));
        assert!(compare_naive(&record, &mut rig.noise));
        assert_eq!(&record[baseline::holes(&record, WORK)], &list[..]);
        compare_all(&mut rig, &record, WORK);
    }
}
