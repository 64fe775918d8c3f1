//! A writer of packets, octet by octet as C706 has them, for any byte order.

/// The device's interface, DEA00001-6C97-11D1-8271-00A02442DF7D.
pub const DEVICE: [u8; 16] = [
    0xDE, 0xA0, 0x00, 0x01, 0x6C, 0x97, 0x11, 0xD1, 0x82, 0x71, 0x00, 0xA0, 0x24, 0x42, 0xDF, 0x7D,
];

/// A packet of RPC.
#[derive(Clone)]
pub struct Packet {
    pub little: bool,
    pub packet_type: u8,
    pub flags: u8,
    pub serial: u16,
    pub interface: [u8; 16],
    pub activity: u8,
    pub sequence: u32,
    pub operation: u16,
    pub number: u16,
    pub body: Vec<u8>,
}

/// A fragment of a call to the device, whose sender wants an acknowledgement.
pub fn fragment(activity: u8, sequence: u32, number: u16, body: &[u8], last: bool) -> Packet {
    Packet {
        little: false,
        packet_type: 0,
        flags: if last { 0x26 } else { 0x24 },
        serial: 0,
        interface: DEVICE,
        activity,
        sequence,
        operation: 3,
        number,
        body: body.to_vec(),
    }
}

impl Packet {
    fn number(&self, out: &mut Vec<u8>, value: u32, size: usize) {
        let high = value.to_be_bytes();
        let mut octets = high[4 - size..].to_vec();
        if self.little {
            octets.reverse();
        }
        out.extend(octets);
    }

    fn uuid(&self, out: &mut Vec<u8>, uuid: [u8; 16]) {
        let mut octets = uuid;
        if self.little {
            octets[..4].reverse();
            octets[4..6].reverse();
            octets[6..8].reverse();
        }
        out.extend(octets);
    }

    /// The octets of the packet.
    pub fn octets(&self) -> Vec<u8> {
        let [high, low] = self.serial.to_be_bytes();
        let order = if self.little { 0x10 } else { 0 };
        let mut out = vec![4, self.packet_type, self.flags, 0, order, 0, 0, high];
        self.uuid(&mut out, [0xDE; 16]);
        self.uuid(&mut out, self.interface);
        self.uuid(&mut out, [self.activity; 16]);
        self.number(&mut out, 0, 4);
        self.number(&mut out, 1, 4);
        self.number(&mut out, self.sequence, 4);
        self.number(&mut out, u32::from(self.operation), 2);
        out.extend([0xFF; 4]);
        let length = u32::try_from(self.body.len()).expect("a length");
        self.number(&mut out, length, 2);
        self.number(&mut out, u32::from(self.number), 2);
        out.extend([0, low]);
        out.extend(&self.body);
        out
    }

    /// The whole of which this is a fragment.
    pub fn whole(&self, body: &[u8]) -> Vec<u8> {
        Packet {
            flags: self.flags & 0xF8,
            serial: 0,
            number: 0,
            body: body.to_vec(),
            ..self.clone()
        }
        .octets()
    }

    /// The acknowledgement of this fragment: all up to this number came.
    pub fn fack(&self, number: u16) -> Vec<u8> {
        let mut body = vec![0, 0];
        self.number(&mut body, 4, 2);
        self.number(&mut body, 1472, 4);
        self.number(&mut body, 1472, 4);
        self.number(&mut body, u32::from(self.serial), 2);
        self.number(&mut body, 0, 2);
        Packet {
            packet_type: 9,
            flags: 8,
            serial: 0,
            number,
            body,
            ..self.clone()
        }
        .octets()
    }
}
