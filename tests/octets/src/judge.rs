//! Whether a transcript explains the settings after it: the definitions of crates/octets_law/specs/Headline.antt.
use crate::octets::{
    Asking, Command, activity_of, asking_in, called, calling, dcp_blocks, is_counted, is_dcp,
    is_for_all, is_read_implicit, is_response, is_whole, untagged,
};

/// The settings, as octets.
#[derive(Clone, Debug, PartialEq)]
pub(crate) struct Settings {
    pub(crate) name: Vec<u8>,
    pub(crate) suite: Vec<u8>,
    pub(crate) texts: [Vec<u8>; 4],
}

/// An event.
#[derive(Clone, Debug, PartialEq)]
pub(crate) enum Given {
    Frame(Vec<u8>),
    Call(Vec<u8>),
    Other,
}

/// An event, and the frames that were sent at it.
#[derive(Clone, Debug, PartialEq)]
pub(crate) struct Told {
    pub(crate) given: Given,
    pub(crate) sent: Vec<Vec<u8>>,
}

type Stored = ((u64, Vec<u8>), Vec<u8>);

impl Settings {
    pub(crate) fn factory() -> Settings {
        Settings {
            name: Vec::new(),
            suite: vec![0; 12],
            texts: blank(),
        }
    }

    pub(crate) fn apply(&mut self, command: &Command) {
        match command {
            Command::Name(permanent, name) => {
                self.name = if *permanent { name.clone() } else { Vec::new() }
            }
            Command::Suite(permanent, suite) => {
                self.suite = if *permanent {
                    suite.clone()
                } else {
                    vec![0; 12]
                }
            }
            Command::Text(which, text) => self.texts[*which] = text.clone(),
            Command::ResetTexts => self.texts = blank(),
            Command::ResetAddress => (self.name, self.suite) = (Vec::new(), vec![0; 12]),
            Command::ResetAll => *self = Settings::factory(),
        }
    }

    pub(crate) fn after(&self, commands: &[Command]) -> Settings {
        let mut settings = self.clone();
        commands.iter().for_each(|command| settings.apply(command));
        settings
    }
}

fn blank() -> [Vec<u8>; 4] {
    [vec![b' '; 54], vec![b' '; 16], vec![b' '; 54], vec![0; 54]]
}

pub(crate) fn asking_of(mac: &[u8], given: &Given) -> Asking {
    match given {
        Given::Frame(frame) => asking_in(mac, &untagged(frame)),
        Given::Call(call) => calling(call),
        Given::Other => Asking::Nothing,
    }
}

/// Whether the answer to a call is stored: by the octets of the call, or of the answer.
fn is_stored(reads_not_kept: bool, call: &[u8]) -> bool {
    !(reads_not_kept && is_read_implicit(call))
}

/// The frame that is sent again for a call.
fn again_for<'a>(
    reads_not_kept: bool,
    asking: &Asking,
    stored: &'a [Stored],
) -> Option<&'a Vec<u8>> {
    let Asking::Call(call) = asking else {
        return None;
    };
    let one = stored.iter().find(|one| one.0.1 == activity_of(call))?;
    (is_stored(reads_not_kept, call) && one.0 == called(call)).then_some(&one.1)
}

fn store(reads_not_kept: bool, asking: &Asking, sent: &[Vec<u8>], stored: &mut Vec<Stored>) {
    if let Asking::Call(call) = asking
        && (!is_counted(call) || again_for(reads_not_kept, asking, stored).is_some())
    {
        return;
    }
    for frame in sent.iter().filter(|frame| is_response(frame)) {
        let answer = &frame[42..];
        if is_stored(reads_not_kept, answer) {
            if let Some(place) = stored.iter().position(|one| one.0.1 == activity_of(answer)) {
                stored.remove(place);
            }
            stored.truncate(3);
            stored.insert(0, (called(answer), frame.clone()));
        }
    }
}

/// The values of a kind in a frame.
fn values_in(kind: u64, frame: &[u8]) -> Vec<Vec<u8>> {
    dcp_blocks(frame)
        .into_iter()
        .filter(|block| block.0 == kind)
        .map(|block| block.1[2..].to_vec())
        .collect()
}

fn tells(settings: &Settings, frame: &[u8]) -> bool {
    values_in(0x0202, frame) == [settings.name.clone()]
        && values_in(0x0102, frame) == [settings.suite.clone()]
}

/// All that some of these commands, in order, make of settings.
fn some_of(commands: &[Command], first: &Settings, wanted: &Settings) -> bool {
    assert!(commands.len() <= 16);
    (0..1_u32 << commands.len()).any(|mask| {
        let some: Vec<Command> = (0..commands.len())
            .filter(|bit| mask >> bit & 1 == 1)
            .map(|bit| commands[bit].clone())
            .collect();
        first.after(&some) == *wanted
    })
}

/// What a transcript is found to be.
#[derive(Clone, Copy, Debug, PartialEq)]
pub(crate) enum Verdict {
    /// The settings are the first ones changed by the confirmed commands, and nothing more.
    Confirmed,
    /// And by the first command that a fault stopped.
    Stopped,
    /// And by some of the event at which the device fell silent.
    CutOff,
    /// The settings are not explained.
    Unexplained,
    /// An answer is owed, or another frame was sent again.
    Unanswered,
    /// Identify tells other settings.
    Misidentified,
}

/// Whether the transcript is a cycle from the first settings to these, of a device that stores all answers.
pub(crate) fn judge(
    mac: &[u8],
    first: &Settings,
    transcript: &[Told],
    settings: &Settings,
) -> Verdict {
    judge_with(false, mac, first, transcript, settings)
}

/// The same of a device that stores the answers to Read Implicit or does not.
pub(crate) fn judge_with(
    reads_not_kept: bool,
    mac: &[u8],
    first: &Settings,
    transcript: &[Told],
    settings: &Settings,
) -> Verdict {
    let (mut carried, mut stopped, mut stored) = (Vec::new(), Vec::new(), Vec::new());
    let silent = transcript
        .iter()
        .rposition(|told| !told.sent.is_empty())
        .map_or(0, |place| place + 1);
    for (place, told) in transcript.iter().enumerate() {
        let asking = asking_of(mac, &told.given);
        let again = again_for(reads_not_kept, &asking, &stored).cloned();
        if place < silent && !is_answered(&asking, again.as_ref(), &told.sent) {
            return Verdict::Unanswered;
        }
        if again.is_none() {
            carried.extend(asking.confirmed(&told.sent));
            stopped.extend(asking.faulted(&told.sent));
        }
        store(reads_not_kept, &asking, &told.sent, &mut stored);
    }
    if let Some(Told {
        given: Given::Frame(frame),
        sent,
    }) = transcript.first()
        && (is_dcp(0xFEFE, 5, 0, &untagged(frame)) && !sent.iter().all(|frame| tells(first, frame))
            || is_for_all(&untagged(frame)) && sent.len() != 1)
    {
        return Verdict::Misidentified;
    }
    let confirmed = first.after(&carried);
    let is_cut_off = |told: &Told| {
        let commands: Vec<Command> = asking_of(mac, &told.given)
            .commands()
            .into_iter()
            .flatten()
            .collect();
        some_of(&commands, &confirmed, settings)
    };
    if confirmed == *settings {
        Verdict::Confirmed
    } else if confirmed.after(&stopped[..stopped.len().min(1)]) == *settings {
        Verdict::Stopped
    } else if transcript[silent..].iter().any(is_cut_off) {
        Verdict::CutOff
    } else {
        Verdict::Unexplained
    }
}

fn is_answered(asking: &Asking, again: Option<&Vec<u8>>, sent: &[Vec<u8>]) -> bool {
    match (asking, again) {
        (Asking::Set(set), _) if is_whole(set) => {
            asking.answers(sent).len() == dcp_blocks(set).len()
        }
        (Asking::Call(call), Some(frame)) if is_counted(call) => {
            sent.is_empty() || sent == [frame.clone()]
        }
        _ => true,
    }
}
