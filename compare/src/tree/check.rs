//! One call on both sides, and what it does to the room.

use super::{lent, spare};
use crate::capi;
use crate::deep::Large;
use crate::mended;
use crate::report::Report;
use second::random::Random;
use second::room::{self, Found, length};
use second::tree::{self, Call, OUT_BEFORE, Object, Outcome, Part, Player, Tree};

/// Bytes before and after what is lent that nobody may touch.
const MARGIN: usize = 16;

/// The tree by the second program.
#[derive(Clone)]
pub enum Ours {
    /// What the room holds is no tree.
    NoTree,
    /// Kept as a log of changes.
    Played(Player),
    /// Found in a room, whatever made it.
    Found(Found),
    /// With each list worked out once.
    Large(Large),
}

impl Ours {
    pub fn found_in(bytes: &[u8]) -> Ours {
        room::read(bytes).map_or(Ours::NoTree, Ours::Found)
    }

    pub fn tree(&self) -> Option<&Tree> {
        match self {
            Ours::Played(player) => player.tree(),
            _ => None,
        }
    }

    /// Of a tree whose lists were all computed by calls.
    fn rule(&self) -> Option<u32> {
        match self {
            Ours::Played(player) => player.tree().map(|tree| tree.settings().rule),
            Ours::Large(large) => large.found().map(|found| found.settings.rule),
            Ours::NoTree | Ours::Found(_) => None,
        }
    }

    pub fn objects(&self) -> Vec<Object> {
        self.expected().map_or(Vec::new(), |found| found.objects)
    }

    /// What the room has to hold.
    pub fn expected(&self) -> Option<Found> {
        match self {
            Ours::NoTree => None,
            Ours::Played(player) => player.tree().map(Found::from),
            Ours::Found(found) => Some(found.clone()),
            Ours::Large(large) => large.found().cloned(),
        }
    }

    fn play(&mut self, call: &Call) -> Outcome {
        match self {
            Ours::Played(player) => player.play(call),
            Ours::NoTree => tree::play_on(None::<&mut Found>, call),
            Ours::Found(found) => tree::play_on(Some(found), call),
            Ours::Large(large) => large.play(call),
        }
    }
}

/// The second program's tree and the room that the library works on.
#[derive(Clone)]
pub struct Both {
    pub ours: Ours,
    lent: Vec<u8>,
}

/// What the library gave, the answer and the whole of `out`.
#[derive(PartialEq, Eq)]
pub struct Given {
    pub answer: [u32; 8],
    pub out: Vec<u8>,
}

impl Both {
    /// Before a start, in a room of noise.
    pub fn before_start(random: &mut Random, room_length: usize) -> Both {
        Both::before(random, room_length, Ours::Played(Player::default()))
    }

    /// The same, for a tree that is to be large.
    pub fn before_large_start(random: &mut Random, room_length: usize) -> Both {
        Both::before(random, room_length, Ours::Large(Large::default()))
    }

    fn before(random: &mut Random, room_length: usize, ours: Ours) -> Both {
        Both {
            ours,
            lent: random.bytes(room_length + 2 * MARGIN),
        }
    }

    pub fn of(random: &mut Random, ours: Ours, room: &[u8]) -> Both {
        let margin = random.bytes(2 * MARGIN);
        let (before, after) = margin.split_at(MARGIN);
        Both {
            ours,
            lent: [before, room, after].concat(),
        }
    }

    pub fn room(&self) -> &[u8] {
        inside(&self.lent)
    }

    /// Plays a call on both sides and says what differs, if anything does.
    pub fn play(
        &mut self,
        random: &mut Random,
        report: &mut Report,
        call: &Call,
    ) -> Result<(), String> {
        if let Call::Room { objects, steps } = call {
            return compare_lengths(report, *objects, *steps);
        }
        self.ask(random, report, call).map(|_| ())
    }

    /// Any call but the one for a length, and what it gave on both sides.
    pub fn ask(
        &mut self,
        random: &mut Random,
        report: &mut Report,
        call: &Call,
    ) -> Result<Given, String> {
        let ours = self.ours.play(call);
        let our_answer = ours.eight().expect("only a length has no answer");
        report.add_call(call.name(), our_answer[0]);
        spare::count(report, call, &ours);

        let out_length = match call {
            Call::Read { out_length, .. } => usize::from(*out_length),
            _ => 0,
        };
        let mut out = vec![OUT_BEFORE; out_length + 2 * MARGIN];
        let mut theirs = [0; 8].map(|_: u32| random.word());
        let given = call.clone();
        let before = self.lent.clone();
        let lending = lent::lending(random, &given);
        lent::count_shared(report, &lending, &given);
        capi::tree::play(
            &given,
            inside_mut(&mut self.lent),
            inside_mut(&mut out),
            &mut theirs,
            &lending,
        );
        if theirs != our_answer {
            return Err(format!("{theirs:?}, second {our_answer:?}"));
        }
        if given != *call || !lending.is_unchanged() {
            return Err("an input was changed".to_string());
        }
        self.check_out(&ours, &out)?;
        self.check_list(report, call, &ours, inside(&out))?;
        self.check_room(report, &ours, call, &before)?;
        Ok(Given {
            answer: theirs,
            out: inside(&out).to_vec(),
        })
    }

    /// One that was read back and computed by rule 2.
    fn check_list(
        &self,
        report: &mut Report,
        call: &Call,
        ours: &Outcome,
        out: &[u8],
    ) -> Result<(), String> {
        match (call, ours.result()) {
            (
                Call::Read {
                    part: Part::List, ..
                },
                Some(Ok(answer)),
            ) if answer.present == 1 && self.ours.rule() == Some(mended::RULE) => {
                mended::check(report, [&out[..answer.length as usize]])
            }
            _ => Ok(()),
        }
    }

    fn check_out(&self, ours: &Outcome, out: &[u8]) -> Result<(), String> {
        let mut expected = vec![OUT_BEFORE; out.len()];
        if let Outcome::ReadBack(_, our_out) = ours {
            inside_mut(&mut expected).copy_from_slice(our_out);
        }
        same(out, &expected, "out")
    }

    fn check_room(
        &self,
        report: &mut Report,
        ours: &Outcome,
        call: &Call,
        before: &[u8],
    ) -> Result<(), String> {
        let changes = matches!(call, Call::Start { .. } | Call::Change(_) | Call::Undo);
        if ours.is_refused() || !changes {
            return same(&self.lent, before, "room, which is to stay,");
        }
        let expected = self
            .ours
            .expected()
            .expect("a change that is done has a tree");
        let needed = expected.limits.room();
        let outside = |lent: &[u8]| [&lent[..MARGIN], &lent[MARGIN + needed..]].concat();
        same(
            &outside(&self.lent),
            &outside(before),
            "outside of the formula",
        )?;
        let room = inside(&self.lent);
        is_found(room, &expected)?;
        if expected.settings.rule == mended::RULE {
            // The library's too: the room holds them, all worked out anew.
            mended::check(report, expected.lists.iter().flatten().map(Vec::as_slice))?;
        }
        match (call, &self.ours) {
            // Start determines every byte.
            (Call::Start { .. }, _) => {
                same(&room[..needed], &room::lay_out(&expected), "started room")
            }
            (_, Ours::Played(_) | Ours::Large(_)) => own_data_is_written_whole(room, &expected),
            _ => Ok(()),
        }
    }
}

fn inside(lent: &[u8]) -> &[u8] {
    &lent[MARGIN..lent.len() - MARGIN]
}

fn inside_mut(lent: &mut [u8]) -> &mut [u8] {
    let end = lent.len() - MARGIN;
    &mut lent[MARGIN..end]
}

fn compare_lengths(report: &mut Report, objects: u32, steps: u32) -> Result<(), String> {
    let ours = tree::room(objects, steps);
    let theirs = capi::tree::room(objects, steps);
    report.add_call("room", u32::from(ours > 0));
    if theirs == ours {
        Ok(())
    } else {
        Err(format!("{theirs}, second {ours}"))
    }
}

/// Names the first byte that differs, counted with the margin.
fn same(theirs: &[u8], ours: &[u8], what: &str) -> Result<(), String> {
    if theirs == ours {
        return Ok(());
    }
    let at = theirs.iter().zip(ours).take_while(|(a, b)| a == b).count();
    let byte = |bytes: &[u8]| bytes.get(at).copied();
    Err(format!(
        "{what} byte {at} is {:?}, second {:?}",
        byte(theirs),
        byte(ours)
    ))
}

/// The room holds this tree, with its lists and steps.
pub fn is_found(room: &[u8], expected: &Found) -> Result<(), String> {
    let Ok(found) = room::read(room) else {
        return Err("the room is not well formed".to_string());
    };
    let parts = [
        ("limits", found.limits == expected.limits),
        ("settings", found.settings == expected.settings),
        ("own data", found.objects == expected.objects),
        ("computed lists", found.lists == expected.lists),
        ("kept steps", found.steps == expected.steps),
    ];
    match parts.iter().find(|(_, same)| !same) {
        None => Ok(()),
        Some((what, _)) => Err(format!("the room has other {what}")),
    }
}

/// Own data is a function of the changes: zeros behind lists and identities.
fn own_data_is_written_whole(room: &[u8], expected: &Found) -> Result<(), String> {
    let places = room[length::HEAD..].chunks(length::OBJECT);
    for (place, object) in places.zip(&expected.objects) {
        same(
            &place[..length::OWN_DATA],
            &room::own_data(object),
            "own data",
        )?;
    }
    Ok(())
}
