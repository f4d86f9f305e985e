//! The calls on a tree, however it is kept.

use super::{Change, LONGEST_LIST, Object, Part, Refused};
use crate::answer::Answer;
use crate::list::List;

pub trait Calls {
    fn objects(&self) -> Vec<Object>;
    /// The computed list of an object that stands.
    fn list(&self, number: usize) -> Option<Vec<u8>>;
    fn kept_steps(&self) -> usize;
    fn change(&mut self, change: &Change) -> Result<Answer, Refused>;
    fn undo(&mut self) -> Result<Answer, Refused>;

    /// Fills the front of `out`, or leaves it as it was.
    fn read_back(&self, part: Part, object: u32, out: &mut [u8]) -> Result<Answer, Refused> {
        let number = object as usize;
        let objects = self.objects();
        let object = objects.get(number).ok_or(Refused::NoSuchObject)?;
        let list = match part {
            Part::List => self.list(number),
            Part::Own => object.own_list.clone(),
            Part::Data => {
                let data = object.data();
                put(&data, out)?;
                return Ok(Answer::done(data.len(), 0));
            }
        };
        if let Some(list) = &list {
            put(list, out)?;
        }
        Ok(list_answer(list.as_deref()))
    }

    fn counts(&self) -> Answer {
        Answer::done(self.objects().len(), self.kept_steps())
    }
}

fn put(bytes: &[u8], out: &mut [u8]) -> Result<(), Refused> {
    let front = out.get_mut(..bytes.len()).ok_or(Refused::OutTooShort)?;
    front.copy_from_slice(bytes);
    Ok(())
}

/// The answer that tells of a list in a tree.
pub fn list_answer(list: Option<&[u8]>) -> Answer {
    let Some(list) = list else {
        return Answer::default();
    };
    assert!(list.len() <= LONGEST_LIST, "no list of a tree is longer");
    let count = List::parse(list)
        .expect("the lists of a tree are good")
        .entries
        .len();
    Answer::done(list.len(), count)
}
