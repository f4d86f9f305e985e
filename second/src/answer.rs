//! The numbers that a call gives back.

use crate::refusal::Refusal;

#[derive(Clone, Copy, Debug, Default, PartialEq, Eq)]
pub struct Answer {
    pub number: u32,
    pub list: u32,
    pub offset: u32,
    pub length: u32,
    pub present: u32,
    pub count: u32,
    pub control: u32,
    /// Where the entries end: a reader's done alone says it.
    pub end: u32,
}

impl Answer {
    /// A list that is there, outside the computation and the reader: control
    /// and end are 0.
    pub fn done(length: usize, count: usize) -> Answer {
        Answer {
            length: narrow(length),
            present: 1,
            count: narrow(count),
            ..Answer::default()
        }
    }

    /// A list that was read, with spare bytes or without.
    pub fn read(length: usize, count: usize, end: usize) -> Answer {
        Answer {
            end: narrow(end),
            ..Answer::done(length, count)
        }
    }

    /// A refusal's other fields are zero; but for 1 to 5 and 15 so are list and
    /// offset.
    pub fn refused(refusal: Refusal, list: u32) -> Answer {
        let concerns_a_list = refusal.fault.is_of_list();
        Answer {
            number: refusal.fault.number(),
            list: if concerns_a_list { list } else { 0 },
            offset: if concerns_a_list {
                narrow(refusal.offset)
            } else {
                0
            },
            ..Answer::default()
        }
    }

    /// A refusal that concerns no list.
    pub fn refused_as_a_whole(number: u32) -> Answer {
        Answer {
            number,
            ..Answer::default()
        }
    }

    /// The seven numbers in the order of the answer's table.
    pub fn seven(&self) -> [u32; 7] {
        [
            self.number,
            self.list,
            self.offset,
            self.length,
            self.present,
            self.count,
            self.control,
        ]
    }

    /// The same and where the entries end.
    pub fn eight(&self) -> [u32; 8] {
        let mut numbers = [0; 8];
        numbers[..7].copy_from_slice(&self.seven());
        numbers[7] = self.end;
        numbers
    }
}

fn narrow(value: usize) -> u32 {
    u32::try_from(value).expect("lengths and offsets of lists are below 65,536")
}
