//! What octets ask of a device and how octets answer it, at fixed places: the definitions of crates/octets_law/specs/Octets.antt.

/// A command. The settings that it changes are those of `Settings`.
#[derive(Clone, Debug, PartialEq)]
pub(crate) enum Command {
    Name(bool, Vec<u8>),
    Suite(bool, Vec<u8>),
    Text(usize, Vec<u8>),
    ResetTexts,
    ResetAddress,
    ResetAll,
}

/// What asks something of a device.
#[derive(Clone, Debug, PartialEq)]
pub(crate) enum Asking {
    Set(Vec<u8>),
    Call(Vec<u8>),
    Nothing,
}

/// The octet at a place, 0 where there is none.
fn octet(place: usize, octets: &[u8]) -> u64 {
    octets.get(place).copied().map_or(0, u64::from)
}

pub(crate) fn number(place: usize, size: usize, octets: &[u8]) -> u64 {
    (place..place + size).fold(0, |sum, at| sum * 256 + octet(at, octets))
}

pub(crate) fn part(place: usize, size: usize, octets: &[u8]) -> Vec<u8> {
    octets.iter().skip(place).take(size).copied().collect()
}

fn place(number: u64) -> usize {
    usize::try_from(number).expect("is a place")
}

pub(crate) fn is_dcp(id: u64, service: u64, kind: u64, frame: &[u8]) -> bool {
    number(12, 2, frame) == 0x8892
        && number(14, 2, frame) == id
        && number(16, 1, frame) == service
        && number(17, 1, frame) == kind
}

fn blocks_in(octets: &[u8]) -> Vec<(u64, Vec<u8>)> {
    let mut blocks = Vec::new();
    let mut rest = octets;
    while !rest.is_empty() && blocks.len() < 16 {
        let size = place(number(2, 2, rest));
        blocks.push((number(0, 2, rest), part(4, size, rest)));
        rest = rest.get(4 + size.div_ceil(2) * 2..).unwrap_or(&[]);
    }
    blocks
}

pub(crate) fn dcp_blocks(frame: &[u8]) -> Vec<(u64, Vec<u8>)> {
    blocks_in(&part(26, place(number(24, 2, frame)), frame))
}

/// Whether it is an Identify request of all stations, so that it has to be answered.
pub(crate) fn is_for_all(frame: &[u8]) -> bool {
    is_dcp(0xFEFE, 5, 0, frame)
        && (30..=1514).contains(&frame.len())
        && frame[..6] == [1, 0x0E, 0xCF, 0, 0, 0]
        && frame[24..30] == [0, 4, 0xFF, 0xFF, 0, 0]
}

/// Whether a Set is whole, so that it has to be answered.
pub(crate) fn is_whole(set: &[u8]) -> bool {
    let size = place(number(24, 2, set));
    let mut rest = part(26, size, set);
    let mut most = 16;
    while !rest.is_empty() {
        let size = place(number(2, 2, &rest));
        if most == 0 || size < 2 || 4 + size > rest.len() {
            return false;
        }
        rest = rest.split_off(rest.len().min(4 + size.div_ceil(2) * 2));
        most -= 1;
    }
    set.len() <= 1514 && 26 + size <= set.len()
}

fn command_in(block: &(u64, Vec<u8>)) -> Option<Command> {
    let qualifier = number(0, 2, &block.1);
    let value = block.1.get(2..).unwrap_or(&[]).to_vec();
    match (block.0, qualifier / 2) {
        (0x0202, _) => Some(Command::Name(qualifier % 2 == 1, value)),
        (0x0102, _) => Some(Command::Suite(qualifier % 2 == 1, part(0, 12, &value))),
        (0x0505, _) => Some(Command::ResetAll),
        (0x0506, 1) => Some(Command::ResetTexts),
        (0x0506, 2) => Some(Command::ResetAddress),
        _ => None,
    }
}

fn block_errors(set: &[u8], frame: &[u8]) -> Vec<u64> {
    if is_dcp(0xFEFD, 4, 1, frame) && number(18, 4, frame) == number(18, 4, set) {
        dcp_blocks(frame)
            .iter()
            .map(|block| number(2, 1, &block.1))
            .collect()
    } else {
        Vec::new()
    }
}

// ---- calls

fn is_little(call: &[u8]) -> bool {
    number(4, 1, call) / 16 == 1
}

fn in_order(place: usize, size: usize, call: &[u8]) -> u64 {
    if is_little(call) {
        (place..place + size)
            .rev()
            .fold(0, |sum, at| sum * 256 + octet(at, call))
    } else {
        number(place, size, call)
    }
}

/// The activity of a call, with the highest octet of each of its fields first.
pub(crate) fn activity_of(call: &[u8]) -> Vec<u8> {
    let mut octets = part(40, 16, call);
    if is_little(call) && octets.len() >= 8 {
        octets[..4].reverse();
        octets[4..6].reverse();
        octets[6..8].reverse();
    }
    octets
}

/// The sequence number of a call and its activity.
pub(crate) fn called(call: &[u8]) -> (u64, Vec<u8>) {
    (in_order(64, 4, call), activity_of(call))
}

/// Whether a call, or the answer to one, is of a Read Implicit (operation 5).
pub(crate) fn is_read_implicit(call: &[u8]) -> bool {
    in_order(68, 2, call) == 5
}

/// Whether the counts of a call's blocks are right.
pub(crate) fn is_counted(call: &[u8]) -> bool {
    in_order(92, 4, call) == 0
        && in_order(84, 4, call) == in_order(96, 4, call)
        && 20 + in_order(84, 4, call) <= in_order(74, 2, call)
}

fn args_of(call: &[u8]) -> Vec<u8> {
    part(100, place(in_order(84, 4, call)), call)
}

fn text_in(record: &[u8]) -> Option<Command> {
    let index = number(34, 2, record);
    let text = part(70, place(number(36, 4, record)).saturating_sub(6), record);
    let is_text = number(28, 4, record) == 1 && (0xAFF1..=0xAFF4).contains(&index);
    is_text.then(|| Command::Text(place(index - 0xAFF1), text))
}

fn written_by(blocks: &[u8]) -> Vec<Option<Command>> {
    if number(34, 2, blocks) != 0xE040 {
        return vec![text_in(blocks)];
    }
    let mut commands = vec![None];
    let mut rest = blocks.get(64..).unwrap_or(&[]);
    while !rest.is_empty() && commands.len() < 17 {
        commands.push(text_in(rest));
        let size = place(number(36, 4, rest));
        rest = rest.get(64 + size.div_ceil(4) * 4..).unwrap_or(&[]);
    }
    commands
}

/// Whether a frame is a response to a call.
pub(crate) fn is_response(frame: &[u8]) -> bool {
    number(12, 2, frame) == 0x0800 && number(0, 2, frame.get(42..).unwrap_or(&[])) == 0x0402
}

fn statuses(call: &[u8], frame: &[u8]) -> Vec<u64> {
    let answer = frame.get(42..).unwrap_or(&[]);
    if !is_response(frame) || called(answer) != called(call) {
        return Vec::new();
    }
    let args = args_of(answer);
    let headers = args.get(64..).unwrap_or(&[]);
    let records = headers
        .chunks(64)
        .take(16)
        .map(|header| number(44, 4, header));
    std::iter::once(number(80, 4, answer))
        .chain(records)
        .collect()
}

// ---- events

pub(crate) fn untagged(frame: &[u8]) -> Vec<u8> {
    if number(12, 2, frame) == 0x8100 {
        [&frame[..12], frame.get(16..).unwrap_or(&[])].concat()
    } else {
        frame.to_vec()
    }
}

pub(crate) fn calling(call: &[u8]) -> Asking {
    if number(0, 2, call) == 0x0400 {
        Asking::Call(call.to_vec())
    } else {
        Asking::Nothing
    }
}

pub(crate) fn asking_in(mac: &[u8], frame: &[u8]) -> Asking {
    if part(0, 6, frame) != mac {
        Asking::Nothing
    } else if is_dcp(0xFEFD, 4, 0, frame) {
        Asking::Set(frame.to_vec())
    } else if number(12, 2, frame) == 0x0800 {
        calling(frame.get(42..).unwrap_or(&[]))
    } else {
        Asking::Nothing
    }
}

impl Asking {
    pub(crate) fn commands(&self) -> Vec<Option<Command>> {
        match self {
            Asking::Set(frame) => dcp_blocks(frame).iter().map(command_in).collect(),
            Asking::Call(call) if in_order(68, 2, call) == 3 => written_by(&args_of(call)),
            _ => Vec::new(),
        }
    }

    /// The numbers with which frames answer it.
    pub(crate) fn answers(&self, sent: &[Vec<u8>]) -> Vec<u64> {
        sent.iter()
            .flat_map(|frame| match self {
                Asking::Set(set) => block_errors(set, frame),
                Asking::Call(call) => statuses(call, frame),
                Asking::Nothing => Vec::new(),
            })
            .collect()
    }

    /// The commands whose number is one of these.
    fn with(&self, sent: &[Vec<u8>], numbers: &[u64]) -> Vec<Command> {
        let answers = self.answers(sent);
        self.commands()
            .into_iter()
            .zip(answers)
            .filter_map(|(command, number)| {
                if numbers.contains(&number) {
                    command
                } else {
                    None
                }
            })
            .collect()
    }

    pub(crate) fn confirmed(&self, sent: &[Vec<u8>]) -> Vec<Command> {
        self.with(sent, &[0])
    }

    pub(crate) fn faulted(&self, sent: &[Vec<u8>]) -> Vec<Command> {
        self.with(sent, &[5, 0xDF80_B505])
    }
}
