//! Both ends in any state: what losses, restarts, power failures and other controllers leave. From then on no frame is lost, and a
//! controller that ends is started again after a pause. The rounds are counted until both ends exchange data. The law of any state
//! (`rounds_law::both_ends_come_back_from_anywhere`) has a limit for them, which is computed here again, and so has the one for any pause
//! (`both_ends_come_back_after_any_pause`). There are states that need the parts of the limit.
mod draws;
mod ends;
mod states;

use controller_core::State;
use draws::Draws;
use ends::{Ends, Octets, device};
use network_world::End;
use rattle_std::alloc::Global;
use relations::Phase;
use rounds_law::Net;
use states::{Case, PAUSE, SILENCE, found};
use std::collections::BTreeSet;
use world_monitor::Kind;

/// How many states are tried.
const SEEDS: u64 = 200;

/// More units than the data hold time of any plan here.
const HELD: usize = 2_000;

/// After how many rounds both exchange data in the same relation, or in two without either noticing it, and how often the controller was
/// started again. If they do not within the limit, none.
fn comes_back(
    ends: &mut Ends,
    case: &Case,
    mut number: u8,
    pause: usize,
) -> Option<(usize, usize)> {
    let limit = case.again_limit(pause);
    let (mut rounds, mut starts, mut strange) = (0, 0, None);
    let mut idle = usize::from(ends.is_ended());
    while rounds <= limit + HELD {
        if !ends.exchange() {
            strange = None;
        } else if ends.are_related() {
            return Some((rounds, starts));
        } else if rounds > *strange.get_or_insert(rounds) + HELD {
            return Some((strange?, starts));
        }
        let was_ended = ends.is_ended();
        let passed = ends.go(if was_ended { pause - idle } else { usize::MAX });
        rounds += passed;
        if !ends.is_ended() {
            idle = 0;
            continue;
        }
        idle += if was_ended { passed } else { 1 };
        if idle >= pause {
            idle = 0;
            starts += 1;
            number += 1;
            ends.start_again(case.setup(number));
        }
    }
    None
}

#[test]
fn any_state_comes_back_within_the_limit() {
    let (mut kinds, mut plain, mut all) = (BTreeSet::new(), 0, 0);
    for seed in 0..SEEDS {
        let mut found = found(seed);
        let (case, story) = (&found.case, &found.story);
        let (state, phase) = (found.ends.controller.state(), found.ends.device.phase());
        kinds.insert(format!(
            "{state:?}, {phase:?}, {}",
            found.ends.are_related()
        ));
        let came = comes_back(&mut found.ends, case, found.number, PAUSE);
        let (rounds, starts) = came.unwrap_or_else(|| panic!("it does not come back: {story}"));
        let limit = case.anywhere_limit();
        assert!(rounds <= limit, "{rounds} of {limit}: {story}");
        // The first start after a whole pause succeeds.
        assert!(starts <= 1, "{starts} starts: {story}");
        // The law counts the longest time of a relation twice, in case a controller hears the inputs of a relation that is not its own. No
        // state here needs it twice, and none needs it if the controllers were started one after another and nothing is under way.
        let unneeded = if found.is_plain { 2 * SILENCE } else { SILENCE };
        assert!(rounds + unneeded <= limit, "{rounds} of {limit}: {story}");
        all = all.max(rounds);
        if found.is_plain {
            plain = plain.max(rounds);
        }
    }
    // States of many kinds were tried, and some took a second and the pause.
    assert!(kinds.len() >= 25, "{kinds:?}");
    assert!(
        plain > 32_000 + PAUSE && all > 32_000 + PAUSE,
        "{plain}, {all}"
    );
}

#[test]
fn any_state_comes_back_with_any_pause() {
    let (mut refused, mut pauses) = (0, Draws::new(SEEDS));
    for seed in 0..SEEDS {
        let mut found = found(seed);
        let (case, story) = (&found.case, &found.story);
        let longest = pauses.of(&[100_000, SILENCE]);
        let pause = 20_000 + pauses.below(longest);
        let came = comes_back(&mut found.ends, case, found.number, pause);
        let (rounds, starts) = came.unwrap_or_else(|| panic!("it does not come back: {story}"));
        let limit = case.again_limit(pause);
        let unneeded = if found.is_plain { 2 * SILENCE } else { SILENCE };
        assert!(rounds + unneeded <= limit, "{rounds} of {limit}: {story}");
        // The starts that the law asks for are enough.
        let enough = (SILENCE + 3).div_ceil(pause + 1);
        assert!(starts <= enough, "{starts} of {enough} starts: {story}");
        refused += usize::from(starts > 1);
    }
    // In some states a start was refused.
    assert!(refused >= 20, "{refused}");
}

/// Two records with a Write each, a data hold time of 96 units, and these patiences.
fn pair() -> Case {
    Case::new(2, 3, 1, [1_000, 1_500])
}

/// Rounds until this holds, in which such frames are lost. Then all that is under way is lost.
fn until(
    mut ends: Ends,
    is_done: impl Fn(&Ends) -> bool,
    is_lost: impl Fn(&Octets) -> bool,
) -> Ends {
    for _ in 0..100 {
        if is_done(&ends) {
            ends.lose_all();
            return ends;
        }
        ends.lossy_round(&is_lost);
    }
    panic!("it never holds");
}

/// A start of that plan at a device with its IP suite.
fn first() -> Ends {
    Ends::start(device(true), pair().setup(1))
}

/// Both ends exchange data after a start, and nothing is under way.
fn exchanging() -> Ends {
    until(first(), Ends::exchange, |_| false)
}

/// The device has its relation in this phase.
fn has(phase: Phase) -> impl Fn(&Ends) -> bool {
    move |ends| ends.device.phase() == Some(phase)
}

/// After how many rounds both exchange data, and how often the controller was started again.
fn back(mut ends: Ends, pause: usize) -> Option<(usize, usize)> {
    comes_back(&mut ends, &pair(), 10, pause)
}

/// A start takes this many rounds if the device has its IP suite: one for each Write, and four.
const START: usize = 2 + 4;

#[test]
fn a_lost_identify_takes_a_second() {
    let ends = until(first(), |_| true, |_| false);
    assert_eq!(ends.controller.state(), State::Looking);
    assert_eq!(back(ends, PAUSE), Some((32_000 + START, 0)));
}

#[test]
fn a_controller_that_waits_for_a_device_without_a_relation_takes_its_patience() {
    let waits = |ends: &Ends| ends.controller.state() == State::Waiting;
    let ends = until(first(), waits, |frame| Kind::of(frame) == Kind::Ready).restart_device();
    assert_eq!(ends.device.phase(), None);
    // A unit of its patience is over, and the unit in which the controller ends is the first one of its pause.
    let expected = (1_500 - 1) + (PAUSE - 1) + START;
    assert_eq!(back(ends, PAUSE), Some((expected, 1)));
}

#[test]
fn a_start_beside_the_relation_of_a_dead_controller_takes_the_pause() {
    let dies = |phase| {
        let ends = until(first(), has(phase), |_| false);
        Ends::start(ends.device, pair().setup(2))
    };
    // The device refuses in the second round, whatever the relation is in.
    let refused = |pause| 2 + (pause - 1);
    for phase in [Phase::Started, Phase::Awaiting, Phase::Exchanging] {
        let expected = Some((refused(PAUSE) + START, 1));
        assert_eq!(back(dies(phase), PAUSE), expected, "{phase:?}");
    }
    // After a pause that is a few units shorter than the relation lasts the next start is refused as well.
    let beside = |pause| back(dies(Phase::Started), pause);
    let (shorter, short) = (SILENCE - 3, SILENCE - 4);
    assert_eq!(beside(shorter), Some((refused(shorter) + START, 1)));
    assert_eq!(beside(short), Some((2 * refused(short) + START, 2)));
}

#[test]
fn a_power_failure_in_the_exchange_takes_the_data_hold_time() {
    let fails = |moment: usize| {
        let mut ends = exchanging();
        for _ in 0..moment {
            ends.round();
        }
        ends.lose_all();
        back(ends.restart_device(), PAUSE).expect("it comes back")
    };
    // At least a unit of the data hold time is over, and the unit in which the controller ends is the first one of its pause.
    let longest = (96 - 1) + (PAUSE - 1) + START;
    assert_eq!((0..64).map(fails).max(), Some((longest, 1)));
}

#[test]
fn ends_that_exchange_data_take_no_round() {
    assert_eq!(back(exchanging(), PAUSE), Some((0, 0)));
}

#[test]
fn inputs_of_a_relation_of_another_start_take_the_activity_time() {
    // The device loses its power, and another start comes as far as its ApplicationReady. The first controller hears the inputs of this
    // relation, and does not answer its ApplicationReady, so the relation lasts until its activity time is over.
    let ends = exchanging().restart_device();
    let again = Ends::start(ends.device, pair().setup(2));
    let other = until(again, has(Phase::Awaiting), |_| false);
    let ends = Ends {
        device: other.device,
        ..ends
    };
    assert_eq!(ends.controller.state(), State::Exchanging);
    assert_eq!(back(ends, PAUSE), Some((SILENCE + (PAUSE - 1) + START, 1)));
}

#[test]
fn a_connect_that_comes_late_takes_the_activity_time() {
    // The device loses its power in the exchange. Then a copy of the Connect arrives that its controller sent in its start-up. The device
    // has a relation again, and sends its inputs, so the controller does not notice it.
    let (mut ends, mut connects) = (first(), Vec::new());
    for _ in 0..START {
        ends.lossy_round(|frame| {
            if Kind::of(frame) == Kind::Connect {
                connects.push(frame.clone());
            }
            false
        });
    }
    assert!(ends.exchange() && connects.len() == 1);
    ends = ends.restart_device();
    ends.lose_all();
    ends.to_device = connects;
    // It arrives in the first round.
    let expected = 1 + SILENCE + (PAUSE - 1) + START;
    assert_eq!(back(ends, PAUSE), Some((expected, 1)));
}

#[test]
fn leaps_do_what_rounds_do() {
    for seed in 0..20 {
        let mut draws = Draws::new(seed);
        let (case, has_address) = (Case::draw(&mut draws), draws.one_in(2));
        let mut ends = Ends::start(device(has_address), case.setup(1));
        let started = Net::start(Global, device(has_address), case.setup(1));
        let (mut net, mut number) = (started.expect("memory"), 1);
        for _ in 0..200 {
            if draws.one_in(12) {
                ends.lose_all();
                net.lose(End::Device);
                net.lose(End::Controller);
            }
            if draws.one_in(40) {
                ends = ends.restart_device();
                net.restart_device().expect("it starts again");
            }
            if ends.is_ended() && draws.one_in(4) {
                number += 1;
                ends.lose_all();
                ends.start_again(case.setup(number));
                let again = Net::start(Global, net.into_device(), case.setup(number));
                net = again.expect("memory");
            }
            for _ in 0..ends.go(draws.of(&[1, 30, 3_000])) {
                net.round().expect("memory");
            }
            let sent = |end| net.under_way(end).iter().map(|frame| frame.as_slice());
            assert!(sent(End::Device).eq(ends.to_device.iter()), "seed {seed}");
            assert!(
                sent(End::Controller).eq(ends.to_controller.iter()),
                "seed {seed}"
            );
            assert_eq!(net.controller().state(), ends.controller.state());
            assert_eq!(net.device().phase(), ends.device.phase());
            assert_eq!(net.device().ar(), ends.device.ar());
        }
    }
}
