//! A sequence of calls in the making. They are played as they come, so that
//! what comes next can follow from what stands.

use crate::tree::{Add, Call, Calls, Change, Outcome, Part, Player, Start, Tree, room};

pub const MOST_CALLS: usize = 60;
/// Trees of at most so many objects are read back whole.
pub const SMALL: usize = 6;

#[derive(Default)]
pub struct Sequence {
    player: Player,
    calls: Vec<Call>,
}

impl Sequence {
    pub fn started(start: Start) -> Sequence {
        let mut sequence = Sequence::default();
        sequence.start(start);
        sequence
    }

    pub fn tree(&self) -> &Tree {
        self.player.tree().expect("a start was done")
    }

    pub fn objects(&self) -> u32 {
        self.tree().objects().len() as u32
    }

    /// How many calls still fit.
    pub fn left(&self) -> usize {
        MOST_CALLS.saturating_sub(self.calls.len())
    }

    pub fn calls(self) -> Vec<Call> {
        assert!(self.calls.len() <= MOST_CALLS, "a sequence is too long");
        self.calls
    }

    /// A longer one in parts that follow each other.
    pub fn in_parts(self) -> Vec<Vec<Call>> {
        self.calls
            .chunks(MOST_CALLS)
            .map(<[Call]>::to_vec)
            .collect()
    }

    pub fn play(&mut self, call: Call) -> Outcome {
        let outcome = self.player.play(&call);
        self.calls.push(call);
        outcome
    }

    /// In a room of the formula's length, or a little longer.
    pub fn start(&mut self, start: Start) -> Outcome {
        let more = [0, 0, 1, 40][start.steps as usize % 4];
        let room_length = room(start.objects, start.steps) as u32 + more;
        self.play(Call::Start { room_length, start })
    }

    pub fn change(&mut self, change: Change) -> Outcome {
        self.play(Call::Change(change))
    }

    pub fn add(&mut self, add: Add) -> Outcome {
        self.change(Change::Add(add))
    }

    /// An add that is known to be done.
    pub fn stands(&mut self, add: Add) {
        let outcome = self.add(add);
        assert!(!outcome.is_refused(), "{outcome:?}");
    }

    /// Reads the lists of all objects as well, if the tree is small.
    pub fn undo(&mut self) {
        self.play(Call::Undo);
        if self.objects() as usize <= SMALL {
            self.lists();
        }
    }

    pub fn counts(&mut self) {
        self.play(Call::Counts);
    }

    pub fn lists(&mut self) {
        self.read_all(Part::List);
    }

    pub fn read_all(&mut self, part: Part) {
        for object in 0..self.objects() {
            self.read(part, object);
        }
    }

    /// Into enough room: exactly enough, or some more.
    pub fn read(&mut self, part: Part, object: u32) {
        let length = self.length(part, object);
        let more = [0, 1, 0, 7, 30][self.calls.len() % 5];
        self.read_into(part, object, length + more);
    }

    pub fn read_into(&mut self, part: Part, object: u32, out_length: usize) {
        self.play(Call::Read {
            part,
            object,
            out_length: u16::try_from(out_length).expect("out is short"),
        });
    }

    /// 0 for an absent list and where there is no such object.
    pub fn length(&self, part: Part, object: u32) -> usize {
        let mut out = [0; 1_024];
        let answer = self.tree().read_back(part, object, &mut out);
        answer.map_or(0, |answer| answer.length as usize)
    }

    /// Whatever can be read back.
    pub fn everything(&mut self) {
        for part in Part::ALL {
            self.read_all(part);
        }
        self.counts();
    }
}
