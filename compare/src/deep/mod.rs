//! Trees that are filled to their limits, 64 objects and 64 kept steps, and
//! then changed, undone and asked for too much.

pub mod generate;
mod large;
pub mod press;

use crate::floors;
use crate::report::Report;
use crate::tree::check::{Both, Ours};
use crate::tree::conditional_at_times;
use crate::tree::generate::{read, room_length};
use crate::tree::told::Told;
use generate::{Maker, Profile};
pub use large::{Large, lists_in_turn};
use large::{TooLong, depths};
use second::cases::tree::palette::Palette;
use second::random::Random;
use second::room::Found;
use second::tree::{Call, Change, MOST_OBJECTS, Part};

/// Shapes, in turn.
const PROFILES: [Profile; 4] = [
    Profile::Chain,
    Profile::Wide,
    Profile::Chain,
    Profile::Mixed,
];
/// From which object on lists are long: in turn, two cases each.
const LOADED_FROM: [usize; 4] = [1, 34, 40, 46];
/// How often rule 1 comes.
const ONE_IN: usize = 5;
/// Accepted ones, with others between them. Of as many steps as are kept some
/// are still adds, so that undo takes objects too.
const MORE_CHANGES: usize = 40;
const FEWER_CHANGES: usize = 12;
/// How often changes of each kind are made at the limit of lists, at three
/// times in each case.
const PRESSED: usize = 3;

/// Each case draws from a generator of its own. Profiles and rules come in
/// turn, whatever is drawn.
pub fn compare(cases: usize, seed: u64) -> Report {
    let mut seeds = Random::new(seed);
    let mut report = Report::new("deep", &floors::DEEP);
    for number in 1..=cases {
        let mut random = Random::new(seeds.draw());
        let palette = Palette::of_weight(&mut random, true).with_spare_bytes();
        let maker = Maker {
            profile: PROFILES[number % PROFILES.len()],
            palette: conditional_at_times(&mut random, palette),
            loaded_from: LOADED_FROM[number / 2 % LOADED_FROM.len()],
        };
        let rule = if number.is_multiple_of(ONE_IN) { 1 } else { 2 };
        let difference = one(random, &mut report, maker, rule).err();
        report.add_case(difference.map(|what| format!("case {number}: {what}")));
    }
    report
}

fn one(mut random: Random, report: &mut Report, maker: Maker, rule: u32) -> Result<(), String> {
    let start = maker.start(&mut random, rule);
    let room_length = room_length(&mut random, &start);
    let both = Both::before_large_start(&mut random, room_length);
    let mut case = Case {
        random,
        report,
        maker,
        both,
        told: Told::default(),
    };
    case.play(Call::Start {
        room_length: room_length as u32,
        start,
    })?;
    case.fill()?;
    case.press()?;
    case.read_lists()?;
    case.change(MORE_CHANGES)?;
    case.press()?;
    case.fill_steps()?;
    case.undo_all()?;
    // Once more, with what is left.
    case.fill()?;
    case.press()?;
    case.change(FEWER_CHANGES)?;
    case.undo_all()?;
    case.fill()?;
    case.read_everything()
}

struct Case<'a> {
    random: Random,
    report: &'a mut Report,
    maker: Maker,
    both: Both,
    told: Told,
}

impl Case<'_> {
    fn large(&self) -> &Large {
        match &self.both.ours {
            Ours::Large(large) => large,
            _ => unreachable!("a case begins with a large tree"),
        }
    }

    fn found(&self) -> &Found {
        self.large().found().expect("a start was done")
    }

    fn play(&mut self, call: Call) -> Result<(), String> {
        let name = call.name();
        let forgotten = self.large().forgotten();
        self.told
            .play(&mut self.both, &mut self.random, self.report, call)?;
        if self.large().forgotten() > forgotten {
            self.report.add_times("steps forgotten", 1);
        }
        if let Some(too_long) = self.large().too_long() {
            count_too_long(self.report, name, too_long);
        }
        self.count_reached();
        Ok(())
    }

    fn count_reached(&mut self) {
        for (what, value) in reached(self.found()) {
            self.report.reach(what, value);
        }
    }

    /// Until so many objects stand as there can be.
    fn fill(&mut self) -> Result<(), String> {
        while self.found().objects.len() < MOST_OBJECTS as usize {
            let standing = self.found().objects.clone();
            if self.random.chance(1, 4) {
                let spoilt = self.maker.spoilt(&mut self.random, &standing);
                self.play(Call::Change(spoilt))?;
                if self.has_no_place_below() {
                    self.play(Call::Undo)?;
                }
                continue;
            }
            let add = self.maker.add(&mut self.random, &standing);
            self.play(Call::Change(Change::Add(add)))?;
            if self.found().objects.len() == standing.len() {
                let add = self.maker.plain_add(&mut self.random, &standing);
                self.play(Call::Change(Change::Add(add)))?;
            }
        }
        Ok(())
    }

    /// A change that isn't spoilt after all may be a root that is no container.
    fn has_no_place_below(&self) -> bool {
        let root = self.found().objects.first();
        root.is_some_and(|root| !root.is_container)
    }

    /// So many changes that are accepted, others between them and undos too.
    fn change(&mut self, mut wanted: usize) -> Result<(), String> {
        while wanted > 0 {
            let objects = self.found().objects.clone();
            let change = self.maker.change(&mut self.random, &objects);
            let accepted = self.large().accepted();
            self.play(Call::Change(change))?;
            if self.large().accepted() > accepted {
                wanted -= 1;
                if self.random.chance(1, 30) {
                    self.read_lists()?;
                }
            }
            if self.random.chance(1, 16) {
                for _ in 0..1 + self.random.below(4) {
                    self.play(Call::Undo)?;
                }
            }
        }
        Ok(())
    }

    /// Changes at the limit of lists, which are undone again.
    fn press(&mut self) -> Result<(), String> {
        for turn in 0..PRESSED * press::KINDS {
            let found = self.found().clone();
            let accepted = self.large().accepted();
            for change in press::at_the_limit(&mut self.random, &found, turn) {
                self.play(Call::Change(change))?;
            }
            for _ in 0..self.large().accepted() - accepted {
                self.play(Call::Undo)?;
            }
        }
        Ok(())
    }

    /// Until so many steps are kept as can be.
    fn fill_steps(&mut self) -> Result<(), String> {
        while self.found().steps.len() < self.found().limits.steps {
            self.change(1)?;
        }
        Ok(())
    }

    /// And some more, which are refused.
    fn undo_all(&mut self) -> Result<(), String> {
        let kept = self.found().steps.len();
        if kept == self.found().limits.steps {
            self.report
                .add_times("as many steps undone as can be kept", 1);
        }
        for _ in 0..kept + 2 {
            self.play(Call::Undo)?;
        }
        self.read_lists()
    }

    fn read_lists(&mut self) -> Result<(), String> {
        self.read(&[Part::List])
    }

    fn read_everything(&mut self) -> Result<(), String> {
        self.read(&Part::ALL)
    }

    fn read(&mut self, parts: &[Part]) -> Result<(), String> {
        self.large().check_afresh()?;
        for &part in parts {
            for object in 0..self.found().objects.len() as u32 {
                let call = read(&mut self.random, &self.both.ours, part, object);
                self.play(call)?;
            }
        }
        self.play(Call::Counts)
    }
}

/// How large a tree is, and how long its lists are.
pub fn reached(found: &Found) -> [(&'static str, usize); 5] {
    let depth = depths(&found.objects).into_iter().max();
    let lists = found.lists.iter().flatten().map(Vec::len);
    [
        ("most objects", found.objects.len()),
        ("most kept steps", found.steps.len()),
        ("greatest depth", depth.unwrap_or(0)),
        ("longest list", lists.clone().max().unwrap_or(0)),
        ("most bytes of all lists", lists.sum()),
    ]
}

/// Where the list of an object below is too long, by its depth and by the
/// number of objects, rounded up.
fn count_too_long(report: &mut Report, call: &'static str, too_long: TooLong) {
    if too_long.object == too_long.changed {
        report.add_times("8 by the changed object's list", 1);
        return;
    }
    let name = match too_long.depth {
        ..=8 => "8 by a list below, down to depth 8, objects up to",
        9..=32 => "8 by a list below, down to depth 32, objects up to",
        _ => "8 by a list below, down to depth 64, objects up to",
    };
    report.add_call(name, too_long.objects.next_multiple_of(16) as u32);
    if too_long.depth > 32 {
        report.add_times(
            match call {
                "set list" => "8 by set list, deeper than 32",
                "set owner" => "8 by set owner, deeper than 32",
                _ => "8 by set mark, deeper than 32",
            },
            1,
        );
    }
}
