//! A second reader of LLDP, written from the standard (IEEE 802.1AB, 8 and 9.2.7.7.1) and not from the first one.

/// What a frame tells: the texts of ChassisID and PortID, the MAC address of the chassis, and the time to live.
pub type Told = (Vec<u8>, Vec<u8>, [u8; 6], u16);

/// All TLVs up to the one that ends the message, as pairs of type and value. `None` if one is not complete.
fn tlvs(mut content: &[u8]) -> Option<Vec<(u8, Vec<u8>)>> {
    let mut found = Vec::new();
    while let Some((first, rest)) = content.split_first() {
        let (second, rest) = rest.split_first()?;
        let size = usize::from(first & 1) << 8 | usize::from(*second);
        let value = rest.get(..size)?;
        if first >> 1 == 0 {
            break;
        }
        found.push((first >> 1, value.to_vec()));
        content = &rest[size..];
    }
    Some(found)
}

/// What a frame tells the station of this MAC address.
pub fn told(own: [u8; 6], frame: &[u8]) -> Option<Told> {
    let destination = frame.get(..6)?;
    let source: [u8; 6] = frame.get(6..12)?.try_into().ok()?;
    let tagged = frame.get(12..14)? == [0x81, 0x00];
    let start = if tagged { 18 } else { 14 };
    if frame.get(start - 2..start)? != [0x88, 0xcc]
        || destination != [0x01, 0x80, 0xc2, 0, 0, 0x0e]
        || source == own
        || frame.len() > 1500 + start
    {
        return None;
    }
    let found = tlvs(&frame[start..])?;
    let kinds: Vec<u8> = found.iter().map(|tlv| tlv.0).collect();
    if kinds.len() < 3 || kinds[..3] != [1, 2, 3] || kinds[3..].iter().any(|kind| *kind <= 3) {
        return None;
    }
    let (chassis, port, time) = (&found[0].1, &found[1].1, &found[2].1);
    let is_id = |value: &Vec<u8>| (2..=256).contains(&value.len());
    if !is_id(chassis) || !is_id(port) || time.len() < 2 {
        return None;
    }
    let name = if chassis[0] == 4 && chassis.len() == 7 {
        let digits: Vec<String> = chassis[1..].iter().map(|octet| format!("{octet:02x}")).collect();
        digits.join("-").into_bytes()
    } else {
        chassis[1..].to_vec()
    };
    let mac = found[3..]
        .iter()
        .filter(|(kind, value)| *kind == 127 && value.len() == 10 && value[..4] == [0, 0x0e, 0xcf, 5])
        .map(|(_, value)| value[4..].try_into().expect("six octets"))
        .next()
        .unwrap_or(source);
    Some((name, port[1..].to_vec(), mac, u16::from(time[0]) << 8 | u16::from(time[1])))
}
