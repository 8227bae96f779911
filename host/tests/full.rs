//! The builder at the limits: the longest record there is, and one hole or one byte past each limit.

mod common;

use common::Rig;
use host::baseline::{self, WORK};
use host::calls::{Call, Reply};
use host::fields::{field, Layout, LAYOUTS};
use host::Answer;

/// The bytes of the longest record: 1,024 holes and 523,776 pairs.
const LONGEST: usize = 2_107_398;

/// The largest field: at 64/1 each two holes are a pair.
fn largest(rig: &mut Rig) -> Vec<u8> {
    field(Layout::Leaning, 1_024, &mut rig.noise)
}

fn refused(number: u64, value: u64) -> Reply {
    Reply::Answer(Answer {
        number,
        first: value,
        ..Answer::default()
    })
}

fn wrote(length: usize) -> Reply {
    refused(0, length as u64)
}

#[test]
fn the_longest_record() {
    let mut rig = Rig::new(31);
    let list = largest(&mut rig);
    let call = Call::Build { a: 64, b: 1 };
    let reply = rig.compare(call, &list, WORK, LONGEST);
    assert_eq!(reply, wrote(LONGEST));
    let reply = rig.compare(call, &list, 70_000, LONGEST + 1_000);
    assert_eq!(reply, wrote(LONGEST));
    let reply = rig.compare(call, &list, WORK, LONGEST - 1);
    assert_eq!(reply, refused(7, LONGEST as u64));
    let reply = rig.compare(call, &list, WORK, 0);
    assert_eq!(reply, refused(7, LONGEST as u64));
}

/// The library's own longest record is taken by the library.
#[test]
fn the_longest_record_is_taken() {
    let mut rig = Rig::new(32);
    let list = largest(&mut rig);
    let (mut work, mut out) = (rig.noise.garbage(WORK), rig.noise.garbage(LONGEST));
    let built = host::build(&list, 64, 1, &mut work, &mut out);
    assert_eq!((built.number, built.first), (0, LONGEST as u64));
    let taken = host::check(&out, &mut work);
    assert_eq!(
        (taken.number, taken.first, taken.second),
        (0, 1_024, 523_776)
    );
}

#[test]
fn one_hole_too_many() {
    let mut rig = Rig::new(33);
    let mut list = largest(&mut rig);
    let call = Call::Build { a: 1, b: 8 };
    let reply = rig.compare(call, &list, WORK, LONGEST);
    assert!(matches!(reply, Reply::Answer(answer) if answer.number == 0));
    list.extend([255; 4]);
    let reply = rig.compare(call, &list, WORK, LONGEST);
    assert_eq!(reply, refused(3, 1_025));
    list.push(0);
    let reply = rig.compare(call, &list, WORK, LONGEST);
    assert_eq!(reply, refused(1, 4_101));
}

/// Fields of 1,024 holes of every layout at ratios from low to high.
#[test]
fn full_fields() {
    let mut rig = Rig::new(34);
    for layout in LAYOUTS {
        let list = field(layout, 1_024, &mut rig.noise);
        for (a, b) in [(1, 8), (2, 1), (9, 4), (64, 1)] {
            let record = baseline::build(&list, a, b, WORK, LONGEST).expect("a full field");
            let reply = rig.compare_once(Call::Build { a, b }, &list, WORK, record.len());
            assert_eq!(reply, wrote(record.len()));
        }
    }
}

/// The last hole stands where the first does; every hole stands in one place.
#[test]
fn repeated_holes_of_a_full_field() {
    let mut rig = Rig::new(35);
    let mut list = largest(&mut rig);
    list.copy_within(0..4, 4_092);
    let call = Call::Build { a: 3, b: 1 };
    let reply = rig.compare(call, &list, WORK, LONGEST);
    assert_eq!(reply, refused(6, 1_023));
    let reply = rig.compare(call, &[7; 4_096], WORK, LONGEST);
    assert_eq!(reply, refused(6, 1));
}
