//! Records whose lists have conditional entries.

use super::fresh;
use super::make::{Script, document};
use crate::cases::build::nt_sid;
use crate::cases::condition;
use crate::cases::tree::conditional::some_list;
use crate::cases::tree::fresh::Faults;
use crate::cases::tree::make::{CONTAINER, LEAF, below, root, set_list, set_owner, system};
use crate::cases::tree::palette::Palette;
use crate::random::Random;

const STORED: usize = 12;

pub fn scripts(random: &mut Random) -> Vec<Vec<u8>> {
    let mut scripts = taken();
    scripts.extend(passed_over());
    let mut scripts: Vec<Vec<u8>> = scripts.into_iter().map(Script::bytes).collect();
    let faults = Faults::draw(random).with_conditions();
    for _ in 0..STORED {
        scripts.push(fresh::one(random, &faults, Palette::with_conditions));
    }
    scripts
}

fn taken() -> Vec<Script> {
    let family = Script::new()
        .add(root(CONTAINER).with_list(some_list()))
        .add(below(0, CONTAINER).with_owner(nt_sid(&[21, 1])))
        .add(below(1, LEAF));
    vec![
        family.clone(),
        family.clone().change(set_list(1, some_list())),
        family.clone().change(set_list(1, some_list())).undo(2),
        family.change(set_owner(1, nt_sid(&[5; 15]), system())),
        document().change(set_list(0, some_list())),
    ]
}

/// Those that are refused by 15, and an undo behind some of them.
fn passed_over() -> Vec<Script> {
    let lists = condition::bad_lists().into_iter().enumerate();
    lists
        .step_by(2)
        .map(|(turn, list)| {
            document()
                .change(set_list(0, list.clone()))
                .add(below(0, LEAF).with_list(list))
                .undo(turn / 2 % 2)
        })
        .collect()
}
