//! The stored scripts.

mod conditional;
mod cuts;
mod forms;
pub mod fresh;
mod heads;
pub mod long;
pub mod make;
mod refusals;
mod spare;
mod steps;
mod trees;
mod worked;

use super::joined;
use crate::random::Random;
use crate::records::Case;
use make::fitting;

const SEED: u64 = 4;

/// All cases in the order of the file; document 01's own comes first.
pub fn all() -> Vec<Case> {
    let mut random = Random::new(SEED);
    let mut scripts = worked::scripts();
    scripts.extend(heads::scripts());
    scripts.extend(cuts::scripts());
    scripts.extend(forms::scripts());
    scripts.extend(refusals::scripts(&mut random));
    scripts.extend(steps::scripts());
    scripts.extend(trees::scripts());
    scripts.extend(long::scripts());
    scripts.extend(fresh::scripts(&mut random));
    let others = [
        fitting(scripts),
        worked::lengths_of_out(),
        fitting(spare::scripts(&mut random)),
        fitting(conditional::scripts(&mut random)),
    ]
    .concat();
    joined(Vec::new(), others)
}

#[cfg(test)]
mod tests {
    use super::*;
    use crate::records::encode_all;
    use crate::refusal::Fault;
    use crate::script;
    use crate::tally::Tally;

    #[test]
    fn every_ending_and_every_refusal_is_met() {
        let tally = Tally::of(&all());
        let often = |label: &str, least: usize| {
            let count = tally.count(label);
            assert!(count >= least, "{label}: {count}");
        };
        for fault in Fault::ALL.into_iter().filter(|fault| fault.is_of_list()) {
            for call in ["add", "set list"] {
                let label = format!("record {call} {}  {}", fault.number(), fault.name());
                often(&label, 2);
            }
        }
        for call in ["add", "set list", "set mark", "set owner"] {
            often(&format!("record {call} 0"), 500);
            often(&format!("record {call} 8  computed list too long"), 5);
        }
        for call in ["set list", "set mark", "set owner"] {
            often(&format!("record {call} 9  no such object"), 20);
        }
        for (label, least) in [
            ("record add 9  first with a parent", 10),
            ("record add 9  later without a parent", 10),
            ("record add 9  parent missing", 10),
            ("record add 9  parent no container", 10),
            ("record add 10  object limit", 5),
            ("record add 6  owner", 20),
            ("record add 6  group", 20),
            ("record set owner 6  owner", 20),
            ("record set owner 6  group", 20),
            ("record add 8  given list too long", 3),
            ("record set list 8  given list too long", 3),
            ("record undo 0", 1_000),
            ("record undo 11  nothing kept", 100),
            ("play 0  listing", 500),
            ("play 0  bad at: head", 50),
            ("play 0  bad at: cut record", 150),
            ("play 0  bad at: kind or mark above 1", 60),
            ("play 0  bad at: unknown record", 30),
            ("play 8  out too short", 40),
            ("record add 0  spare bytes", 50),
            ("record set list 0  spare bytes", 80),
        ] {
            often(label, least);
        }
    }

    #[test]
    fn the_file_stays_small_and_the_same() {
        let cases = all();
        // Some 140 have lists with spare bytes, some 30 conditional entries.
        assert!((1_000..=1_700).contains(&cases.len()), "{}", cases.len());
        let file = encode_all(&cases);
        assert!(file.len() <= 1_350_000, "{}", file.len());
        assert_eq!(file, encode_all(&all()));
    }

    /// The random ones are there for what stands at their end.
    #[test]
    fn random_scripts_leave_trees() {
        let scripts = fresh::scripts(&mut Random::new(SEED));
        let objects: Vec<usize> = scripts
            .iter()
            .filter_map(|script| match script::play(script).ending {
                script::Ending::Listing { objects } => Some(objects),
                script::Ending::Bad { .. } => None,
            })
            .collect();
        let many = objects.iter().filter(|&&objects| objects >= 3).count();
        assert!(2 * many >= scripts.len(), "{many} of {}", scripts.len());
    }
}
