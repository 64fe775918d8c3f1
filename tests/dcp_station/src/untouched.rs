//! What tools ask changes nothing of the controller: with and without the key it has the same states and sends the same frames, but for the
//! answers.

use super::*;

/// The catalogue without the key.
fn without_identity(catalogue: &str) -> String {
    let from = catalogue.find(",\"Identity\":").expect("the key");
    let to = from + catalogue[from..].find('}').expect("its end") + 1;
    format!("{}{}", &catalogue[..from], &catalogue[to..])
}

/// A controller of this catalogue.
fn begun(catalogue: &str, names: &str) -> Option<Alone> {
    let (ar, activity) = names.split_once(' ').expect("two identifiers");
    plan(catalogue).map(|plan| Alone::new(plan, ar, activity))
}

/// The frames that the controller sends, and all that is sent.
fn sent(alone: &Alone) -> (Vec<String>, usize) {
    let own = alone.outbox.controller().iter().map(|frame| digits(frame.as_slice())).collect();
    (own, alone.outbox.controller().len() + alone.outbox.services().len())
}

/// Both do the same at one event. Returns whether one of them answered a tool.
fn same(seen: &mut Alone, unseen: &mut Alone, event: &Event, line: &str) -> bool {
    seen.served.step(event, &mut seen.outbox);
    unseen.served.step(event, &mut unseen.outbox);
    let ((own, all), (other, others)) = (sent(seen), sent(unseen));
    assert_eq!(own, other, "{line}");
    assert_eq!(seen.served.controller().state(), unseen.served.controller().state(), "{line}");
    assert!(all == others || (all == 1 && others == 0), "{line}");
    all != others
}

#[test]
fn the_controller_is_the_same_with_and_without_the_key() {
    let mut answered = 0;
    for (name, script) in each(SCRIPTS) {
        let mut lines = script.lines();
        let Some(catalogue) = lines.next().and_then(|line| line.strip_prefix("config ")) else { continue };
        let Some(names) = lines.next().and_then(|line| line.strip_prefix("alone ")) else { continue };
        if !catalogue.contains("\"Identity\"") {
            continue;
        }
        let (Some(mut seen), Some(mut unseen)) = (begun(catalogue, names), begun(&without_identity(catalogue), names)) else { continue };
        for line in lines {
            let (word, rest) = line.split_once(' ').unwrap_or((line, ""));
            let (event, count) = match word {
                "hear" => (Event::Frame(heard(rest)), 1),
                "elapse" => (Event::Tick, rest.parse().expect("a number")),
                _ => (Event::Stop, 1),
            };
            for _ in 0..count {
                answered += usize::from(same(&mut seen, &mut unseen, &event, name));
            }
        }
    }
    assert_eq!(answered, 86);
}
