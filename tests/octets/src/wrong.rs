//! Wrong devices: what a right one sent, or has after it, is changed, and is refused.
use crate::judge::{Given, Settings, Told, Verdict, asking_of, judge};
use crate::octets::{Asking, Command, dcp_blocks, is_counted};
use crate::scripts::{Cycle, OWN, Random, life};

/// The cycles of some lives.
fn cycles() -> Vec<Cycle> {
    (1_000..1_150)
        .flat_map(|seed| life(&mut Random::new(seed), 4))
        .collect()
}

fn verdict(cycle: &Cycle, transcript: &[Told], settings: &Settings) -> Verdict {
    judge(&OWN, &cycle.first, transcript, settings)
}

/// How many of the cycles that a bug can touch are refused for it.
fn refused(
    bug: impl Fn(&Cycle) -> Option<(Vec<Told>, Settings)>,
    wanted: &[Verdict],
) -> (usize, usize) {
    let (mut touched, mut refused) = (0, 0);
    for cycle in cycles() {
        if let Some((transcript, settings)) = bug(&cycle) {
            touched += 1;
            refused += usize::from(wanted.contains(&verdict(&cycle, &transcript, &settings)));
        }
    }
    (touched, refused)
}

/// The commands that are confirmed at each event, without the repeats of calls.
fn confirmed(cycle: &Cycle) -> Vec<Command> {
    cycle
        .transcript
        .iter()
        .flat_map(|told| asking_of(&OWN, &told.given).confirmed(&told.sent))
        .collect()
}

/// A cycle in which nothing failed, so that its settings are those of its confirmed commands alone.
fn is_plain(cycle: &Cycle) -> bool {
    verdict(cycle, &cycle.transcript, &cycle.settings) == Verdict::Confirmed
        && cycle
            .transcript
            .last()
            .is_some_and(|told| !told.sent.is_empty())
}

#[test]
fn it_confirms_what_it_does_not_carry() {
    let (touched, refused) = refused(
        |cycle| {
            let commands = confirmed(cycle);
            let lost = cycle
                .first
                .after(&commands[..commands.len().saturating_sub(1)]);
            (is_plain(cycle) && lost != cycle.settings).then(|| (cycle.transcript.clone(), lost))
        },
        &[Verdict::Unexplained],
    );
    assert!(
        touched > 50 && refused * 10 > touched * 9,
        "{refused} of {touched}"
    );
}

#[test]
fn it_carries_what_nobody_ordered() {
    let (touched, refused) = refused(
        |cycle| {
            let mut settings = cycle.settings.clone();
            settings.apply(&Command::Name(true, b"stray".to_vec()));
            is_plain(cycle).then(|| (cycle.transcript.clone(), settings))
        },
        &[Verdict::Unexplained],
    );
    assert!(touched > 50 && refused == touched, "{refused} of {touched}");
}

#[test]
fn it_carries_in_another_order() {
    let (touched, refused) = refused(
        |cycle| {
            let mut commands = confirmed(cycle);
            commands.reverse();
            let settings = cycle.first.after(&commands);
            (is_plain(cycle) && settings != cycle.settings)
                .then(|| (cycle.transcript.clone(), settings))
        },
        &[Verdict::Unexplained],
    );
    assert!(
        touched > 50 && refused * 10 > touched * 9,
        "{refused} of {touched}"
    );
}

// Where a repeat is carried out twice, what came between is undone.
#[test]
fn it_carries_a_repeat_twice() {
    let (touched, refused) = refused(
        |cycle| {
            let first = cycle
                .transcript
                .iter()
                .enumerate()
                .find_map(|(place, told)| {
                    let asking = asking_of(&OWN, &told.given);
                    let commands = asking.confirmed(&told.sent);
                    let is_repeat = cycle.transcript[..place].iter().any(|other| {
                        matches!(&asking, Asking::Call(_))
                            && asking_of(&OWN, &other.given) == asking
                            && other.sent == told.sent
                    });
                    (is_repeat && !commands.is_empty()).then_some(commands)
                })?;
            let settings = cycle.settings.after(&first);
            (is_plain(cycle) && settings != cycle.settings)
                .then(|| (cycle.transcript.clone(), settings))
        },
        &[Verdict::Unexplained],
    );
    assert!(touched > 3 && refused == touched, "{refused} of {touched}");
}

/// The transcript without what was sent at the last event of this kind that something is sent after.
fn muted(cycle: &Cycle, is_muted: impl Fn(&Told) -> bool) -> Option<(Vec<Told>, Settings)> {
    let last = cycle
        .transcript
        .iter()
        .rposition(|told| !told.sent.is_empty())?;
    let place = cycle.transcript[..last]
        .iter()
        .rposition(|told| !told.sent.is_empty() && is_muted(told))?;
    let mut transcript = cycle.transcript.clone();
    transcript[place].sent.clear();
    Some((transcript, cycle.settings.clone()))
}

#[test]
fn it_does_not_answer_a_set() {
    let is_set = |told: &Told| matches!(&told.given, Given::Frame(frame) if matches!(asking_of(&OWN, &Given::Frame(frame.clone())), Asking::Set(_)));
    let (touched, refused) = refused(|cycle| muted(cycle, is_set), &[Verdict::Unanswered]);
    assert!(touched > 50 && refused == touched, "{refused} of {touched}");
}

#[test]
fn it_answers_a_set_in_part() {
    let (touched, refused) = refused(
        |cycle| {
            let mut transcript = cycle.transcript.clone();
            let is_long = |told: &Told| match asking_of(&OWN, &told.given) {
                Asking::Set(set) => told.sent.len() == 1 && dcp_blocks(&set).len() > 1,
                _ => false,
            };
            let told = transcript.iter_mut().find(|told| is_long(told))?;
            told.sent[0][25] -= 8;
            Some((transcript, cycle.settings.clone()))
        },
        &[Verdict::Unanswered],
    );
    assert!(touched > 50 && refused == touched, "{refused} of {touched}");
}

#[test]
fn it_sends_another_frame_again() {
    let (touched, refused) = refused(
        |cycle| {
            let mut transcript = cycle.transcript.clone();
            let place = (1..transcript.len()).find(|place| {
                let (before, told) = (&transcript[place - 1], &transcript[*place]);
                let asking = asking_of(&OWN, &told.given);
                matches!(&asking, Asking::Call(call) if is_counted(call))
                    && told.sent.len() == 1
                    && before.sent == told.sent
                    && asking_of(&OWN, &before.given) == asking
            })?;
            transcript[place].sent[0].push(0);
            Some((transcript, cycle.settings.clone()))
        },
        &[Verdict::Unanswered],
    );
    assert!(touched > 3 && refused == touched, "{refused} of {touched}");
}

#[test]
fn it_tells_another_name() {
    let (touched, refused) = refused(
        |cycle| {
            let mut transcript = cycle.transcript.clone();
            let frame = transcript.first_mut()?.sent.first_mut()?;
            let place = (0..frame.len() - 2).find(|place| frame[*place..].starts_with(b"pump-"))?;
            frame[place] = b'd';
            Some((transcript, cycle.settings.clone()))
        },
        &[Verdict::Misidentified],
    );
    assert!(touched > 50 && refused == touched, "{refused} of {touched}");
}

#[test]
fn it_does_not_answer_identify() {
    let (touched, refused) = refused(
        |cycle| {
            let mut transcript = cycle.transcript.clone();
            transcript.first_mut()?.sent.clear();
            Some((transcript, cycle.settings.clone()))
        },
        &[Verdict::Misidentified],
    );
    assert!(touched > 50 && refused == touched, "{refused} of {touched}");
}
