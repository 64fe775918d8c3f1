//! A journal that commits and starts again and again.
use flash_model::{Lent, MemoryFlash};
use pn_values::Command;
use settings_journal::Journal;

/// A flash with sectors of the size that the scripts' device has.
pub type Flash = MemoryFlash<4096>;

/// Commits `times` names. Returns how many commits were done.
pub fn commit_times(flash: &mut Flash, times: u32) -> usize {
    let Ok(mut journal) = Journal::boot(Lent::new(flash)) else {
        return 0;
    };
    (0..times)
        .filter(|&number| journal.commit(&naming(number)).is_ok())
        .count()
}

/// The permanent Set of a name of two octets.
fn naming(number: u32) -> Command {
    let name = station_names::check(&[b'n', b'a' + (number % 16) as u8])
        .expect("two letters are a name");
    Command::SetName {
        permanent: true,
        name,
    }
}

/// Starts `times` times. Returns the length of the name that the last start read.
pub fn start_times(flash: &mut Flash, times: u32) -> usize {
    (0..times).fold(0, |_, _| start(flash))
}

/// Starts once. If the start fails, there is no name.
fn start(flash: &mut Flash) -> usize {
    match Journal::boot(Lent::new(flash)) {
        Ok(journal) => journal.settings().name.as_bytes().len(),
        Err(_) => 0,
    }
}

#[cfg(test)]
mod tests {
    use super::*;

    // The first commit writes a base, and the other fourteen its slots.
    #[test]
    fn fifteen_commits_are_done_and_the_last_name_is_read() {
        let mut flash = Flash::blank();
        assert_eq!(commit_times(&mut flash, 15), 15);
        assert_eq!(start_times(&mut flash, 1), 2);
    }
}
