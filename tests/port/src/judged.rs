//! Stations as a host in C writes them: which are refused, and with which number.
use c_layout::{Module, Parameter, Submodule};
use device_abi::{Record, Station, judge};

fn submodule(subslot: u16) -> Submodule {
    Submodule {
        ident: 1,
        subslot,
        input: 0,
        output: 0,
        parameter_count: 0,
        parameters: std::array::from_fn(|_| Parameter { index: 0, length: 0 }),
    }
}

/// A record of slot 1 that the application answers, to be read.
fn record(index: u16) -> Record {
    Record { slot: 1, subslot: 1, index, greatest_length: 1308, is_readable: 1, is_writable: 0 }
}

/// Two records of the application, and three modules in slots 0 to 2, each with two submodules in subslots 1 and 2; the first of slot 1 has two parameter records.
fn station() -> Station {
    let mut station = Station {
        mac: [2, 0, 0, 0, 0, 1],
        vendor_id: 1,
        device_id: 1,
        instance: 1,
        hardware_revision: 0,
        profile_id: 0,
        profile_specific_type: 0,
        station_type_length: 25,
        station_type: [b'a'; 28],
        order_id: [b' '; 20],
        serial_number: [b' '; 16],
        software_revision: [b'V', 0, 0, 0],
        smallest_interval: 0,
        inputs_begin_bad: 0,
        ready_by_application: 0,
        only_own_controller: 0,
        records_passed_on: 0,
        numbers_go_round: 0,
        first_number: 0,
        reads_not_kept: 0,
        asks_own_first: 0,
        without_services: 0,
        module_count: 3,
        modules: std::array::from_fn(|slot| Module {
            ident: 1,
            slot: slot as u16,
            submodule_count: 2,
            submodules: std::array::from_fn(|place| submodule(place as u16 + 1)),
        }),
        record_count: 2,
        records: std::array::from_fn(|place| record(place as u16)),
    };
    let part = &mut station.modules[1].submodules[0];
    part.parameter_count = 2;
    part.parameters = [Parameter { index: 0, length: 1 }, Parameter { index: 32767, length: 64 }];
    station
}

/// What is wrong with a station after a change.
fn fault(change: fn(&mut Station)) -> u32 {
    let mut station = station();
    change(&mut station);
    judge(77312, 11, 1680, &station)
}

#[test]
fn each_fault_has_its_number() {
    let rows: [(fn(&mut Station), u32); 52] = [
        (|_| (), 0),
        (|s| s.station_type_length = 26, 4),
        (|s| s.module_count = 17, 4),
        (|s| s.modules[2].submodule_count = 5, 4),
        (|s| s.modules[2].submodules[1].parameter_count = 3, 4),
        (|s| s.mac = [0xFF; 6], 18),
        (|s| s.mac[0] = 1, 18),
        (|s| s.mac[0] = 0xFE, 0),
        (|s| s.modules[2].slot = 40, 19),
        (|s| s.modules[2].slot = 16, 19),
        (|s| s.modules[2].slot = 15, 0),
        (|s| s.modules[2].slot = 0, 19),
        (|s| s.modules[0].slot = 1, 19),
        (|s| s.modules[3].slot = 0, 0),
        (|s| s.modules[0].submodules[0].subslot = 0, 20),
        (|s| s.modules[2].submodules[1].subslot = 36864, 20),
        (|s| s.modules[2].submodules[1].subslot = 36863, 0),
        (|s| s.modules[1].submodules[1].subslot = 1, 20),
        (|s| s.modules[1].submodules[2].subslot = 1, 0),
        (|s| s.modules[0].submodules[1].input = 65535, 21),
        (|s| s.modules[0].submodules[1].input = 1440, 21),
        (|s| s.modules[0].submodules[1].output = 1440, 21),
        (|s| s.modules[0].submodules[1].output = 1439, 0),
        (|s| s.modules[0].submodules[2].output = 1440, 0),
        (|s| s.modules[1].submodules[0].parameters[0].length = 0, 22),
        (|s| s.modules[1].submodules[0].parameters[1].length = 65, 22),
        (|s| s.modules[1].submodules[0].parameters[1].index = 32768, 22),
        (|s| s.modules[1].submodules[0].parameters[1].index = 0, 22),
        (|s| s.smallest_interval = 65537, 23),
        (|s| s.smallest_interval = u32::MAX, 23),
        (|s| s.smallest_interval = 65536, 0),
        (|s| (s.inputs_begin_bad, s.ready_by_application) = (65535, 2), 0),
        (|s| (s.numbers_go_round, s.first_number) = (2, u32::MAX), 0),
        (|s| (s.reads_not_kept, s.asks_own_first) = (2, u32::MAX), 0),
        (|s| s.record_count = 17, 4),
        (|s| s.record_count = 16, 0),
        (|s| s.record_count = 0, 0),
        (|s| s.records[1].index = 0, 46),
        (|s| (s.records[1].index, s.records[1].subslot) = (0, 2), 0),
        (|s| s.records[1].index = 32768, 46),
        (|s| s.records[1].index = 32767, 0),
        (|s| s.records[0].greatest_length = 0, 46),
        (|s| s.records[0].greatest_length = 1309, 46),
        (|s| s.records[0].greatest_length = 1, 0),
        (|s| s.records[0].is_readable = 0, 46),
        (|s| (s.records[0].is_readable, s.records[0].is_writable) = (0, 256), 0),
        (|s| s.records[2].index = 40000, 0),
        // Of several faults the first in this order is told.
        (|s| (s.smallest_interval, s.records[0].greatest_length) = (65537, 0), 23),
        (|s| (s.record_count, s.mac[0]) = (17, 1), 4),
        (|s| (s.smallest_interval, s.modules[1].submodules[0].parameters[1].index) = (65537, 32768), 22),
        (|s| (s.mac[0], s.modules[1].slot) = (1, 16), 18),
        (|s| (s.modules[1].submodules[0].input, s.modules[1].submodules[0].subslot) = (1440, 0), 20),
    ];
    for (row, (change, wanted)) in rows.into_iter().enumerate() {
        assert_eq!(fault(change), wanted, "row {row}");
    }
}

#[test]
fn another_header_or_a_small_room() {
    let station = station();
    for (size, abi, op_size, wanted) in [(77312, 10, 1680, 2), (77312, 12, 1680, 2), (77312, 11, 1676, 2), (77311, 11, 1680, 3)] {
        assert_eq!(judge(size, abi, op_size, &station), wanted);
    }
}
