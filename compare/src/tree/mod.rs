//! Sequences of calls on a tree, and rooms that no calls reach.

pub mod check;
mod damage;
pub mod generate;
mod lent;
mod made;
mod masks;
mod places;
pub mod spare;
pub mod told;

use crate::floors;
use crate::report::Report;
use check::{Both, Ours};
pub use generate::spoil;
use second::cases::tree::palette::Palette;
use second::random::Random;
use second::tree::{Call, Part};
use told::Told;

/// Each case draws from a generator of its own, so that it stays the same
/// whatever the others find.
pub fn compare(cases: usize, seed: u64) -> Report {
    let mut seeds = Random::new(seed);
    let mut report = Report::new("tree", &floors::TREE);
    for number in 1..=cases {
        let mut random = Random::new(seeds.draw());
        let difference = one(&mut random, &mut report).err();
        report.add_case(difference.map(|what| format!("case {number}: {what}")));
    }
    report
}

fn one(random: &mut Random, report: &mut Report) -> Result<(), String> {
    let palette = Palette::draw(random);
    let palette = varied(random, palette);
    let room = sequence(random, report, &palette)?;
    for _ in 0..random.below(3) {
        let damaged = damage::damaged(random, &room);
        on_any_room(random, report, &palette, &damaged).map_err(|what| {
            format!(
                "{what}, on a damaged room, {}",
                told::damage(&room, &damaged)
            )
        })?;
    }
    if random.chance(1, 2) {
        let large = random.chance(1, 40);
        let heavy = !large && random.chance(3, 4);
        let palette = Palette::of_weight(random, heavy);
        let palette = varied(random, palette);
        let (found, room) = made::room(random, &palette, large);
        check::is_found(&room, &found)?;
        on_any_room(random, report, &palette, &room)
            .map_err(|what| format!("{what}, on a room made of {}", told::tree(&found)))?;
    }
    Ok(())
}

/// With spare bytes, generic bits and conditions, each at times.
pub fn varied(random: &mut Random, palette: Palette) -> Palette {
    let palette = roomy_at_times(random, palette);
    let palette = generic_at_times(random, palette);
    conditional_at_times(random, palette)
}

/// In every third case entries are under conditions.
pub fn conditional_at_times(random: &mut Random, palette: Palette) -> Palette {
    if random.chance(1, 3) {
        palette.with_conditions()
    } else {
        palette
    }
}

/// In every third case lists have spare bytes.
pub fn roomy_at_times(random: &mut Random, palette: Palette) -> Palette {
    if random.chance(1, 3) {
        palette.with_spare_bytes()
    } else {
        palette
    }
}

/// In every other case masks ask for generic bits, and mappings bring some in.
fn generic_at_times(random: &mut Random, palette: Palette) -> Palette {
    if random.chance(1, 2) {
        palette.with_generic_bits()
    } else {
        palette
    }
}

/// Calls from a start on; gives the room that they leave.
fn sequence(
    random: &mut Random,
    report: &mut Report,
    palette: &Palette,
) -> Result<Vec<u8>, String> {
    let start = generate::start(random, palette);
    let room_length = generate::room_length(random, &start);
    let mut both = Both::before_start(random, room_length);
    let wanted = generate::how_many(random, &start);
    let mut told = Told::default();
    for spoilt in generate::spoilt_starts(random, &start, room_length) {
        told.play(&mut both, random, report, spoilt)?;
    }
    let good = Call::Start {
        room_length: room_length as u32,
        start,
    };
    told.play(&mut both, random, report, good)?;
    for _ in 0..wanted {
        let tree = both.ours.tree().expect("a start was done");
        let call = generate::call(random, palette, tree);
        let changes = matches!(call, Call::Change(_) | Call::Undo);
        told.play(&mut both, random, report, call)?;
        if changes && random.chance(1, 3) {
            read_back(random, report, &mut both, &mut told)?;
        }
    }
    read_back(random, report, &mut both, &mut told)?;
    Ok(both.room().to_vec())
}

/// Every list, now and then the other parts too.
fn read_back(
    random: &mut Random,
    report: &mut Report,
    both: &mut Both,
    told: &mut Told,
) -> Result<(), String> {
    let tree = both.ours.tree().expect("a start was done");
    masks::count(report, tree);
    let objects = both.ours.objects().len() as u32;
    let parts: &[Part] = if random.chance(1, 4) {
        &Part::ALL
    } else {
        &[Part::List]
    };
    for &part in parts {
        for object in 0..objects {
            let call = generate::read(random, &both.ours, part, object);
            told.play(both, random, report, call)?;
        }
    }
    told.play(both, random, report, Call::Counts)
}

/// Some calls, each on the room as it is, then some in turn.
fn on_any_room(
    random: &mut Random,
    report: &mut Report,
    palette: &Palette,
    room: &[u8],
) -> Result<(), String> {
    let ours = Ours::found_in(room);
    report.add_room(match &ours {
        Ours::NoTree => "no tree",
        _ => "a tree",
    });
    if let Ours::Found(found) = &ours {
        spare::count_in_a_room(report, found);
    }
    for call in generate::calls_on_any_room(random, palette, &ours) {
        let mut both = Both::of(random, ours.clone(), room);
        Told::default().play(&mut both, random, report, call)?;
    }
    let mut both = Both::of(random, ours, room);
    let mut told = Told::default();
    for _ in 0..random.below(6) {
        let calls = generate::calls_on_any_room(random, palette, &both.ours);
        let call = random.pick(&calls).clone();
        told.play(&mut both, random, report, call)?;
    }
    Ok(())
}
