//! Eight numbers that a call writes, between others that nobody may touch.

use second::random::Random;

const MARGIN: usize = 4;

pub struct Watched {
    all: [u32; 8 + 2 * MARGIN],
    before: [u32; 8 + 2 * MARGIN],
}

impl Watched {
    /// Whatever they hold before.
    pub fn draw(random: &mut Random) -> Watched {
        let all = [0; 8 + 2 * MARGIN].map(|_: u32| random.word());
        Watched { all, before: all }
    }

    pub fn lent(&mut self) -> &mut [u32; 8] {
        let (_, behind) = self.all.split_at_mut(MARGIN);
        behind
            .first_chunk_mut()
            .expect("eight stand between the margins")
    }

    pub fn numbers(&self) -> [u32; 8] {
        std::array::from_fn(|place| self.all[MARGIN + place])
    }

    pub fn margins_are_unchanged(&self) -> bool {
        let margins = (0..MARGIN).chain(MARGIN + 8..self.all.len());
        margins
            .into_iter()
            .all(|place| self.all[place] == self.before[place])
    }
}
