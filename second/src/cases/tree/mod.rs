//! The stored sequences of calls on a tree.

pub(super) mod chains;
pub(super) mod conditional;
pub(super) mod crossing;
pub(super) mod fresh;
mod limits;
pub mod make;
mod mending;
mod orders;
pub mod palette;
mod read_backs;
mod refusals;
mod sequence;
pub(super) mod shapes;
mod sizes;
mod spare;
mod starts;
mod steps;
pub(super) mod worked;

use crate::random::Random;
use crate::records::Case;
use crate::tree::Call;

const SEED: u64 = 3;

/// All sequences in the order of the file. The first begins in a room of
/// zeros; where one begins without a start, it goes on with what stands.
pub fn sequences() -> Vec<Vec<Call>> {
    let mut random = Random::new(SEED);
    let mut all = Vec::new();
    all.extend(starts::sequences(&mut random));
    all.extend(worked::sequences());
    all.extend(refusals::sequences(&mut random));
    all.extend(orders::sequences(&mut random));
    all.extend(steps::sequences());
    all.extend(limits::sequences());
    all.extend(chains::sequences());
    all.extend(crossing::sequences());
    all.extend(sizes::sequences());
    all.extend(shapes::sequences());
    all.extend(read_backs::sequences());
    all.extend(fresh::sequences(&mut random));
    all.extend(spare::sequences(&mut random));
    all.extend(mending::sequences());
    all.extend(conditional::sequences(&mut random));
    all
}

pub fn all() -> Vec<Case> {
    let calls = sequences().into_iter().flatten();
    calls.map(Case::Tree).collect()
}

#[cfg(test)]
mod tests {
    use super::*;
    use crate::records::encode_all;
    use crate::refusal::Fault;
    use crate::tally::Tally;
    use crate::tree::{Calls, Part, Player};

    #[test]
    fn every_call_meets_every_number() {
        let tally = Tally::of(&all());
        let often = |label: &str, least: usize| {
            let count = tally.count(label);
            assert!(count >= least, "{label}: {count}");
        };
        for fault in Fault::ALL.into_iter().filter(|fault| fault.is_of_list()) {
            for call in ["start", "add", "set list"] {
                let label = format!("tree {call} {}  {}", fault.number(), fault.name());
                often(&label, 2);
            }
        }
        for call in ["add", "set list", "set mark", "set owner", "undo"] {
            often(&format!("tree {call} 0"), 200);
            often(&format!("tree {call} 13  not a tree"), 1);
        }
        for call in ["set list", "set mark", "set owner", "list", "own", "data"] {
            often(&format!("tree {call} 9  no such object"), 10);
        }
        for call in ["list", "own", "data"] {
            often(&format!("tree {call} 8  out too short"), 30);
            often(&format!("tree {call} 0"), 500);
        }
        for call in ["add", "set list", "set mark", "set owner"] {
            often(&format!("tree {call} 8  computed list too long"), 15);
        }
        // No computed list has spare bytes.
        assert_eq!(tally.count("tree list 0  spare bytes"), 0);
        for (label, least) in [
            ("tree start 0", 400),
            ("tree start 12  limits", 15),
            ("tree start 12  rule", 8),
            ("tree start 12  room too short", 30),
            ("tree start 8  default too long", 4),
            ("tree add 9  first with a parent", 10),
            ("tree add 9  later without a parent", 10),
            ("tree add 9  parent missing", 20),
            ("tree add 9  parent no container", 20),
            ("tree add 10  object limit", 30),
            ("tree add 6  owner", 20),
            ("tree add 6  group", 20),
            ("tree set owner 6  owner", 20),
            ("tree set owner 6  group", 20),
            ("tree add 8  given list too long", 5),
            ("tree set list 8  given list too long", 10),
            ("tree undo 11  nothing kept", 40),
            ("tree counts 0", 300),
            ("tree room", 40),
            ("tree start 0  spare bytes", 10),
            ("tree add 0  spare bytes", 35),
            ("tree set list 0  spare bytes", 35),
            ("tree own 0  spare bytes", 60),
        ] {
            often(label, least);
        }
    }

    #[test]
    fn the_file_stays_small_and_the_same() {
        let sequences = sequences();
        assert!((500..=620).contains(&sequences.len()));
        assert!(sequences.iter().all(|calls| calls.len() <= 60));
        let cases = all();
        assert!((15_000..=24_000).contains(&cases.len()));
        let file = encode_all(&cases);
        assert!(file.len() <= 3_000_000);
        assert_eq!(file, encode_all(&all()));
    }

    /// In small trees every list is read after every undo that was done.
    #[test]
    fn lists_are_read_after_undo() {
        let calls: Vec<Call> = sequences().concat();
        let mut player = Player::default();
        let (mut undone, mut read_whole) = (0, 0);
        for (at, call) in calls.iter().enumerate() {
            let outcome = player.play(call);
            if *call != Call::Undo || outcome.is_refused() {
                continue;
            }
            let objects = player.tree().map_or(0, |tree| tree.objects().len());
            if (1..=sequence::SMALL).contains(&objects) {
                undone += 1;
                let behind = calls[at + 1..].iter().take(objects).enumerate();
                let reads_all = behind.into_iter().all(|(number, call)| {
                    let wanted = (Part::List, number as u32);
                    matches!(call, Call::Read { part, object, .. } if (*part, *object) == wanted)
                });
                read_whole += usize::from(reads_all);
            }
        }
        assert!(undone >= 1_000, "{undone}");
        // But for those that only clear the place for what comes next.
        assert!(undone - read_whole <= 40, "{undone} {read_whole}");
    }
}
