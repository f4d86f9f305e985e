//! Rooms that hold a tree, most of them such as no calls reach.

use super::places;
use second::cases::tree::palette::Palette;
use second::random::Random;
use second::room::{Found, Step, lay_out_over, length};
use second::tree::{LONGEST_LIST, Limits, Object, Settings};

/// Of objects and of steps.
const FEW: usize = 6;
const MANY: usize = 64;

/// Computed lists are good and not fresh; steps lead to states that never
/// were. Noise lies wherever nothing looks.
pub fn room(random: &mut Random, palette: &Palette, large: bool) -> (Found, Vec<u8>) {
    let found = tree(random, palette, if large { MANY } else { FEW });
    let more = random.below(2) * random.below(40);
    let noise = random.bytes(found.limits.room() + more);
    let mut room = lay_out_over(&found, noise);
    fill_with_noise(random, &found, &mut room);
    (found, room)
}

fn tree(random: &mut Random, palette: &Palette, most: usize) -> Found {
    let limits = Limits {
        objects: 1 + random.below(most),
        steps: random.below(most + 1),
    };
    let start = palette.start(random, limits.objects as u32, limits.steps as u32);
    let mut objects = Vec::new();
    for _ in 0..random.below(limits.objects + 1) {
        let object = object(random, palette, &objects);
        objects.push(object);
    }
    let lists = objects.iter().map(|_| list(random, palette)).collect();
    let steps = steps(random, palette, &objects, limits.steps);
    Found {
        limits,
        settings: Settings {
            rule: start.rule,
            mapping: start.mapping,
            default_list: list(random, palette),
        },
        objects,
        lists,
        steps,
    }
}

fn list(random: &mut Random, palette: &Palette) -> Option<Vec<u8>> {
    let list = palette.list(random);
    (list.len() <= LONGEST_LIST && random.chance(3, 4)).then_some(list)
}

fn object(random: &mut Random, palette: &Palette, standing: &[Object]) -> Object {
    let containers: Vec<usize> = (0..standing.len())
        .filter(|&number| standing[number].is_container)
        .collect();
    Object {
        parent: (!standing.is_empty()).then(|| *random.pick(&containers)),
        // The root is one, so that others can stand below it.
        is_container: standing.is_empty() || random.chance(3, 4),
        is_protected: random.chance(1, 4),
        object_type: palette.guid(random),
        owner: palette.sid(random),
        group: palette.sid(random),
        own_list: list(random, palette),
    }
}

fn steps(random: &mut Random, palette: &Palette, objects: &[Object], most: usize) -> Vec<Step> {
    let mut standing = objects.len();
    let mut steps = Vec::new();
    for _ in 0..random.below(most + 1) {
        if standing == 0 {
            break;
        }
        if random.chance(1, 3) {
            standing -= 1;
            steps.push(Step::Add);
            continue;
        }
        let object = random.below(standing);
        let before = Object {
            is_protected: random.chance(1, 2),
            owner: palette.sid(random),
            group: palette.sid(random),
            own_list: list(random, palette),
            ..objects[object].clone()
        };
        steps.push(Step::Other { object, before });
    }
    steps
}

/// Behind lists and identities, in the slots of absent lists and in the own
/// data of an add's step.
fn fill_with_noise(random: &mut Random, found: &Found, room: &mut [u8]) {
    for slot in places::slots(found) {
        let first = match room[slot] {
            0 => slot + 1,
            _ => slot + 3 + places::length_in_slot(room, slot),
        };
        fill(random, &mut room[first..slot + length::SLOT]);
    }
    for at in places::identities(found) {
        let first = at + 1 + usize::from(room[at]);
        fill(random, &mut room[first..at + length::IDENTITY]);
    }
    for (number, step) in found.steps.iter().enumerate() {
        if *step == Step::Add {
            let at = places::step(found.limits.objects, number);
            fill(random, &mut room[at + 2..at + length::STEP]);
        }
    }
}

fn fill(random: &mut Random, bytes: &mut [u8]) {
    bytes.fill_with(|| random.byte());
}
