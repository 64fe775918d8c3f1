//! The answers alone, also to the requests of scripts whose catalogue has no plan yet: they depend on the names, the addresses and the
//! identity of the project, and on the frame.

use super::*;

/// A catalogue with the project of this one and a device that has no modules.
fn without_modules(catalogue: &str) -> String {
    let device = r#"{"DeviceIdentity":{"VendorID":291,"DeviceID":1110},"DeviceAccessPointItem":{"ModuleIdentNumber":1,"PhysicalSlots":[0],"DNS_CompatibleName":"pn-demo","MinDeviceInterval":1,"VirtualSubmoduleItem":[],"ModuleItemRef":[]},"ModuleItem":[],"#;
    let from = catalogue.find("\"Project\":").expect("a project");
    let to = catalogue.find("\"SendClockFactor\":").expect("times");
    let project = &catalogue[from..to];
    format!("{device}{project}\"SendClockFactor\":32,\"ReductionRatio\":1,\"DataHoldFactor\":3,\"Slots\":[]}}}}")
}

/// The frame with which the controller of a plan answers these octets.
fn answer(plan: &Plan, octets: &[u8]) -> Option<String> {
    let mut outbox = Outbox::new();
    controller_dcp::answer(plan, octets, &mut outbox);
    assert!(outbox.len() <= 1);
    outbox.as_slice().first().map(|frame| digits(frame.as_slice()))
}

/// Whether this line is a DCP answer of the controller: under 0xFEFF, or under 0xFEFD with ServiceType 1.
fn is_answer(line: &str) -> bool {
    let frame = spelled(line);
    frame[12..16] == [0x88, 0x92, 0xFE, 0xFF] || (frame[12..16] == [0x88, 0x92, 0xFE, 0xFD] && frame[17] == 1)
}

/// The answers of one script: each `hear` beside the frames that are printed for it. Returns how many requests were answered.
fn compare(name: &str, script: &str, wanted: &str) -> usize {
    let catalogue = script.lines().next().and_then(|line| line.strip_prefix("config ")).expect("a catalogue");
    let plan = plan(&without_modules(catalogue)).expect("a plan");
    let mut count = 0;
    // The lines before the first state are those of `alone`. Each further line prints up to its state.
    let mut printed = wanted.split_inclusive("state ").skip(1);
    for line in script.lines().skip(2) {
        let frames: Vec<&str> = printed.next().expect("what the line prints").lines().filter_map(|line| line.strip_prefix("out ")).collect();
        let Some(octets) = line.strip_prefix("hear ") else { continue };
        match answer(&plan, heard(octets).as_slice()) {
            Some(frame) => {
                assert_eq!(frames, [frame.as_str()], "{name}: {line}");
                count += 1;
            }
            None => assert!(!frames.iter().any(|frame| is_answer(frame)), "{name}: {line}"),
        }
    }
    count
}

#[test]
fn each_request_of_each_script_is_answered_as_the_model_answers() {
    let (mut scripts, mut count) = (0, 0);
    for ((name, lines), (_, wanted)) in each(SCRIPTS).zip(each(PRINTED)) {
        if lines.contains("\nalone ") && wanted.contains("plan ok") {
            count += compare(name, lines, wanted);
            scripts += 1;
        }
    }
    assert_eq!((scripts, count), (47, 150));
}

/// An Identify of all stations, from 02-00-00-00-00-03.
const ALL: &str = "010ecf0000000200000000038892fefe05000000000100010004ffff0000";

/// A project whose controller has this identity.
fn told(identity: &str) -> Option<Plan> {
    let project = r#""Project":{"NameOfStation":"pump-1","IPAddress":"192.168.0.2","SubnetMask":"255.255.255.0","Gateway":"0.0.0.0","Controller":{"NameOfStation":"plc","MAC":"02-00-00-00-00-02","IPAddress":"192.168.0.1"IDENTITY},"SendClockFactor":32"#;
    plan(&without_modules(&project.replace("IDENTITY", identity)))
}

// Octets written by hand from IEC 61158-6-10, 4.3.
#[test]
fn an_identify_of_all_is_answered_by_name_type_ids_role_options_instance_and_address() {
    let plan = told(r#","Identity":{"VendorID":291,"DeviceID":1110,"DNS_CompatibleName":"pn-plc"}"#).expect("a plan");
    let wanted = [
        "0200000000030200000000028892", "feff0501000000010000", "0058",
        "02010008", "0000706e2d706c63",
        "02020005", "0000706c6300",
        "02030006", "000001230456",
        "02040004", "00000200",
        "02050012", "000001010102020102020203020402050207",
        "02070004", "00000001",
        "0102000e", "0001c0a80001ffffff0000000000",
    ]
    .concat();
    assert_eq!(answer(&plan, &spelled(ALL)), Some(wanted));
}

#[test]
fn without_an_identity_nothing_is_answered() {
    let plan = told("").expect("a plan");
    let own = ALL.replace("010ecf000000", "020000000002");
    for request in [ALL, &own, "0200000000020200000000038892fefd030000000007000000020202", "0200000000020200000000038892fefd0400000000080000000c02020008000170756d702d31"] {
        assert_eq!(answer(&plan, &spelled(request)), None, "{request}");
    }
}

#[test]
fn a_type_of_station_has_1_to_25_printable_octets() {
    let with = |station_type: &str| told(&format!(r#","Identity":{{"VendorID":0,"DeviceID":65535,"DNS_CompatibleName":"{station_type}"}}"#));
    for right in ["a", " ", "~", "A b!", &"x".repeat(25)] {
        assert!(with(right).is_some(), "{right}");
    }
    for wrong in ["", "\\u001f", "\\u007f", "\\u00e4", &"x".repeat(26), "a\\u0000"] {
        assert!(with(wrong).is_none(), "{wrong}");
    }
}
