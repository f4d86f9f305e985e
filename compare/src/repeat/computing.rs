//! What a container below inherits is computed, bytes to bytes.

use std::hint::black_box;

use super::{Repeated, Side};
use crate::capi::lending::Lending;
use crate::capi::{self, WhenEmpty};
use second::cases::build::good_list;
use second::cases::tree::make::system;
use second::computing::{self, Request, setting};
use second::script::empty_tree;

pub struct Computing {
    side: Side,
    request: Request,
    out: Vec<u8>,
    answer: [u32; 8],
}

impl Computing {
    /// Of a container that has no list of its own; everything that is
    /// inherited becomes two entries, and has room.
    pub fn below(side: Side, parent: Vec<u8>) -> Computing {
        Computing {
            side,
            out: vec![0; 2 * parent.len()],
            request: Request {
                rule: 2,
                settings: setting::PARENT | setting::CONTAINER | setting::AUTO_INHERIT,
                mapping: empty_tree().settings.mapping,
                parent,
                creator: Vec::new(),
                default_list: Vec::new(),
                types: Vec::new(),
                owner: system(),
                group: system(),
            },
            answer: [0; 8],
        }
    }

    /// Of a container whose own list is empty and which inherits nothing: the
    /// parent is searched for an inheritable entry, and none is copied.
    pub fn searching(side: Side, parent: Vec<u8>) -> Computing {
        let mut computing = Computing::below(side, parent);
        computing.request.settings = setting::PARENT | setting::CREATOR | setting::CONTAINER;
        computing.request.creator = good_list(&[]);
        computing
    }
}

impl Repeated for Computing {
    fn call(&mut self) {
        let request = black_box(&self.request);
        match self.side {
            Side::Library => {
                let lending = Lending::apart(WhenEmpty::Null);
                capi::compute(request, &mut self.out, &mut self.answer, &lending);
            }
            Side::Second => self.answer = computing::compute(request, &mut self.out).eight(),
        }
        black_box(self);
    }

    fn outcome(&self) -> ([u32; 8], String) {
        (self.answer, format!("{:?}", self.out))
    }
}
