//! What is plugged after a pull or a plug: rows that were computed by hand.

use module_diff::{Affected, ChangeKind, RealChange, pull, pull_module, plug};
use pn_values::{ParameterRecord, Real, RealSubmodule, demo_modules};

/// A submodule with these numbers and no parameter records.
fn submodule(subslot: u16, ident: u32) -> RealSubmodule {
    RealSubmodule {
        subslot,
        ident,
        ..RealSubmodule::default()
    }
}

/// The slots of the modules, each with its ident number, and the subslots of each.
fn listed(real: &Real) -> Vec<(u16, u32, Vec<u16>)> {
    real.modules
        .iter()
        .map(|entry| (entry.slot, entry.ident, entry.submodules.iter().map(|part| part.subslot).collect()))
        .collect()
}

/// The access point of the demo station.
fn access_point() -> (u16, u32, Vec<u16>) {
    (0, 1, vec![1, 0x8000, 0x8001])
}

#[test]
fn a_module_stays_with_no_submodules_and_goes_as_a_whole() {
    let mut real = demo_modules();
    assert!(pull(&mut real, 1, 1));
    assert_eq!(listed(&real), [access_point(), (1, 16, vec![]), (2, 32, vec![1])]);
    assert!(!pull(&mut real, 1, 1));
    // It takes no module of another ident number.
    assert!(!plug(&mut real, 1, 17, &submodule(1, 16)));
    assert!(pull_module(&mut real, 1));
    assert!(!pull_module(&mut real, 1));
    assert_eq!(listed(&real), [access_point(), (2, 32, vec![1])]);
    assert!(plug(&mut real, 1, 17, &submodule(3, 16)));
    assert_eq!(listed(&real), [access_point(), (1, 17, vec![3]), (2, 32, vec![1])]);
}

#[test]
fn slots_and_subslots_stay_ascending() {
    let mut real = demo_modules();
    for (slot, subslot) in [(15, 9), (3, 4), (3, 2), (7, 1), (3, 3), (3, 1)] {
        assert!(plug(&mut real, slot, 5, &submodule(subslot, 6)), "{slot} {subslot}");
    }
    let wanted = [access_point(), (1, 16, vec![1]), (2, 32, vec![1]), (3, 5, vec![1, 2, 3, 4]), (7, 5, vec![1]), (15, 5, vec![9])];
    assert_eq!(listed(&real), wanted);
    // A module has at most four submodules.
    assert!(!plug(&mut real, 3, 5, &submodule(5, 6)));
    assert_eq!(listed(&real), wanted);
}

#[test]
fn a_submodule_is_plugged_as_it_is_given() {
    let mut real = demo_modules();
    let mut given = submodule(4, 0xFFFF_FFFF);
    given.input = 1440;
    given.output = 3;
    for (index, length) in [(5, 2), (32_767, 64)] {
        given.parameters.push(ParameterRecord { index, length });
    }
    assert!(plug(&mut real, 9, 77, &given));
    let entry = real.modules.last().expect("a module");
    let part = &entry.submodules[0];
    assert_eq!((entry.slot, entry.ident, part.subslot, part.ident), (9, 77, 4, 0xFFFF_FFFF));
    assert_eq!((part.input, part.output), (1440, 3));
    let records: Vec<_> = part.parameters.iter().map(|record| (record.index, record.length)).collect();
    assert_eq!(records, [(5, 2), (32_767, 64)]);
}

#[test]
fn sixteen_modules_fit() {
    let mut real = Real::none();
    for slot in 1..=15 {
        assert!(plug(&mut real, slot, 1, &submodule(1, 1)));
    }
    assert_eq!(real.modules.len(), 15);
    let mut copy = demo_modules();
    copy.replace_by(&real);
    assert_eq!(listed(&copy), listed(&real));
}

#[test]
fn a_module_affects_all_of_its_slot() {
    let change = |kind, subslot| RealChange {
        kind,
        slot: 2,
        subslot,
        module_ident_number: 0,
        submodule_ident_number: 0,
    };
    let one = Affected {
        slot: 2,
        subslot: Some(3),
    };
    let all = Affected {
        slot: 2,
        subslot: None,
    };
    assert_eq!(change(ChangeKind::Pull, 3).affected(), one);
    assert_eq!(change(ChangeKind::Plug, 3).affected(), one);
    assert_eq!(change(ChangeKind::PullModule, 0).affected(), all);
    assert!(one.covers(2, 3) && !one.covers(2, 4) && !one.covers(3, 3));
    assert!(all.covers(2, 3) && all.covers(2, 4) && !all.covers(3, 3));
}
