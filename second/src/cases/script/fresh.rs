//! Random scripts, most of whose records mean something: objects that stand,
//! lists that come down, changes that are undone.

use super::make::of_calls;
use crate::cases::tree::fresh::Faults;
use crate::cases::tree::palette::Palette;
use crate::random::Random;
use crate::script::{MOST_OBJECTS, empty_tree};
use crate::tree::{Call, Calls, Change, play_on};

const STORED: usize = 280;
/// Longer ones are drawn again.
const LONGEST: usize = 3_500;

pub fn scripts(random: &mut Random) -> Vec<Vec<u8>> {
    let faults = Faults::draw(random);
    (0..STORED)
        .map(|_| one(random, &faults, |palette| palette))
        .collect()
}

/// `refine` is asked what to draw from.
pub fn one(random: &mut Random, faults: &Faults, refine: fn(Palette) -> Palette) -> Vec<u8> {
    let heavy = random.chance(1, 6);
    let palette = refine(Palette::of_weight(random, heavy));
    let wanted = 10 + random.below(40);
    let mut script = records(random, &palette, wanted, |random, change| {
        if random.chance(1, 16) {
            faults.spoil(random, change);
        }
    });
    if random.chance(1, 6) {
        damage(random, &mut script);
    }
    if script.len() > LONGEST {
        return one(random, faults, refine);
    }
    script
}

/// A good head and so many records. The tree is played beside them, so that
/// what comes next can follow from what stands.
pub fn records(
    random: &mut Random,
    palette: &Palette,
    wanted: usize,
    mut spoil: impl FnMut(&mut Random, &mut Change),
) -> Vec<u8> {
    let mut tree = empty_tree();
    let mut calls: Vec<Call> = Vec::new();
    let most = *random.pick(&[3, 6, 6, 12, MOST_OBJECTS]);
    // Some trees are filled before anything else is done to them.
    let filling = random.below(MOST_OBJECTS + 4) * usize::from(random.chance(1, 8));
    let mut undos = 0;
    while calls.len() < wanted {
        let call = if calls.len() < filling {
            Call::Change(Change::Add(palette.add(random, &tree.objects)))
        } else if undos > 0 {
            undos -= 1;
            Call::Undo
        } else {
            match random.below(32) {
                0..27 => {
                    let mut change = palette.change(random, &tree.objects, most);
                    spoil(random, &mut change);
                    Call::Change(change)
                }
                27..31 if tree.kept_steps() > 0 => Call::Undo,
                _ => {
                    undos = random.below(4).max(random.below(tree.kept_steps() + 2));
                    Call::Undo
                }
            }
        };
        play_on(Some(&mut tree), &call);
        calls.push(call);
    }
    of_calls(&calls).bytes()
}

/// Cut, one byte changed, or a byte put in.
fn damage(random: &mut Random, script: &mut Vec<u8>) {
    let at = random.below(script.len());
    match random.below(4) {
        0 => script.truncate(at),
        1 => script[at] = random.byte(),
        2 => script[at] = script[at].wrapping_add(1),
        _ => script.insert(at, *random.pick(&[0, 1, 2, 3, 4, 5, 6, 0xFF])),
    }
}
