//! What is asked, and what ends that.

use super::samples::{activity, question, read, relation, write};
use asked_records::{AnswerFault, AskedRecord, AskedRecords, Given, Request, Wanted};
use module_diff::Affected;
use records::Blocks;

/// What an answer to the question with this number comes to.
fn answer(asked: &mut AskedRecords, number: u32, given: &Given<'_>) -> Option<AnswerFault> {
    asked.answer(number, given, &mut Blocks::new()).err()
}

/// Something that is asked: under number 1, a Write of three octets.
fn one() -> AskedRecords {
    let mut asked = AskedRecords::new();
    assert_eq!(
        asked.ask(&question(Request::Write(write(3))), &[1, 2, 3]),
        Some(1)
    );
    asked
}

#[test]
fn asks_one_at_a_time() {
    let mut asked = one();
    let seen = AskedRecord {
        number: 1,
        slot: 2,
        subslot: 1,
        index: 0x1234,
        wanted: Wanted::Write(&[1, 2, 3]),
    };
    assert_eq!(asked.asked(), Some(seen));
    assert_eq!(asked.ask(&question(Request::Read(read(8))), &[]), None);
    assert_eq!(asked.asked(), Some(seen));
    assert_eq!(answer(&mut asked, 1, &Given::Done), None);
    assert_eq!(asked.asked(), None);
    assert_eq!(asked.ask(&question(Request::Read(read(8))), &[]), Some(2));
    assert_eq!(
        asked.asked().map(|asked| (asked.number, asked.wanted)),
        Some((2, Wanted::Read(8)))
    );
}

#[test]
fn knows_a_repeat() {
    let mut asked = one();
    assert!(asked.is_repeat(&activity(5), 9));
    assert!(!asked.is_repeat(&activity(5), 8));
    assert!(!asked.is_repeat(&activity(5), 10));
    assert!(!asked.is_repeat(&activity(6), 9));
    assert_eq!(answer(&mut asked, 1, &Given::Done), None);
    assert!(!asked.is_repeat(&activity(5), 9));
}

#[test]
fn accepts_an_answer_once() {
    let mut asked = one();
    assert_eq!(
        answer(&mut asked, 0, &Given::Done),
        Some(AnswerFault::NotAsked)
    );
    assert_eq!(
        answer(&mut asked, 2, &Given::Done),
        Some(AnswerFault::NotAsked)
    );
    assert_eq!(answer(&mut asked, 1, &Given::Done), None);
    assert_eq!(
        answer(&mut asked, 1, &Given::Done),
        Some(AnswerFault::NotAsked)
    );
    // The next question does not get the answer to the one before it.
    assert_eq!(asked.ask(&question(Request::Write(write(0))), &[]), Some(2));
    assert_eq!(
        answer(&mut asked, 1, &Given::Done),
        Some(AnswerFault::NotAsked)
    );
    assert_eq!(answer(&mut asked, 2, &Given::Done), None);
}

#[test]
fn refuses_what_is_no_answer() {
    let mut asked = one();
    assert_eq!(
        answer(&mut asked, 1, &Given::Octets(&[])),
        Some(AnswerFault::Kind)
    );
    for code in [0, 0x9F, 0xB0, 0xFF] {
        assert_eq!(
            answer(&mut asked, 1, &Given::Refused(code, 1)),
            Some(AnswerFault::Code)
        );
    }
    assert_eq!(answer(&mut asked, 1, &Given::Refused(0xA0, 0)), None);
    assert_eq!(asked.ask(&question(Request::Read(read(4))), &[]), Some(2));
    assert_eq!(answer(&mut asked, 2, &Given::Done), Some(AnswerFault::Kind));
    assert_eq!(
        answer(&mut asked, 2, &Given::Octets(&[0; 21])),
        Some(AnswerFault::Length)
    );
    assert_eq!(answer(&mut asked, 2, &Given::Octets(&[0; 20])), None);
    let faults = [
        AnswerFault::NotAsked,
        AnswerFault::Kind,
        AnswerFault::Length,
        AnswerFault::Code,
    ];
    assert_eq!(faults.map(AnswerFault::number), [1, 2, 3, 4]);
}

#[test]
fn is_over_after_two_seconds() {
    let mut ticked = one();
    for _ in 1..64_000 {
        assert!(!ticked.tick());
    }
    let mut passed = one();
    assert_eq!(passed.due_in(), 64_000);
    passed.pass(63_999);
    for asked in [&mut ticked, &mut passed] {
        assert_eq!(asked.due_in(), 1);
        assert!(asked.tick());
        assert_eq!(asked.asked(), None);
        assert_eq!(asked.due_in(), u32::MAX);
        assert!(!asked.tick());
        assert_eq!(answer(asked, 1, &Given::Done), Some(AnswerFault::NotAsked));
        assert_eq!(asked.ask(&question(Request::Write(write(0))), &[]), Some(2));
        assert_eq!(asked.due_in(), 64_000);
    }
}

#[test]
fn ends_with_its_relation() {
    let other = activity(0x12);
    for (request, ends) in [
        (Request::Read(read(1)), true),
        (Request::ReadImplicit(read(1)), false),
        (Request::Write(write(1)), true),
    ] {
        let mut asked = AskedRecords::new();
        assert_eq!(asked.ask(&question(request), &[]), Some(1));
        asked.end_relation(&other);
        assert!(asked.asked().is_some());
        asked.end_relation(&relation());
        assert_eq!(asked.asked().is_none(), ends);
    }
}

#[test]
fn ends_with_a_pull() {
    for (slot, subslot, ends) in [
        (2, Some(1), true),
        (2, None, true),
        (2, Some(2), false),
        (1, Some(1), false),
        (1, None, false),
    ] {
        let mut asked = AskedRecords::new();
        assert_eq!(
            asked.ask(&question(Request::ReadImplicit(read(1))), &[]),
            Some(1)
        );
        asked.drop_at(Affected { slot, subslot });
        assert_eq!(asked.asked().is_none(), ends, "{slot} {subslot:?}");
    }
}
