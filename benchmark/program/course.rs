//! A course: how many rounds, the opening, which is played once, and the round. `benchmark/README.md` says more.

use reading::bytes::field;
use reading::scenario::{self, Operation, Settings};

/// The number of rounds and the opening's size.
const HEAD: usize = 8;

pub struct Course<'a> {
    pub rounds: u64,
    pub settings: Settings,
    /// What follows `new`.
    pub opening: Vec<Operation<'a>>,
    pub round: Vec<Operation<'a>>,
}

impl Course<'_> {
    pub fn read(bytes: &[u8]) -> Course<'_> {
        let start = HEAD + field(bytes, 4, 4) as usize;
        let mut opening = scenario::read(&bytes[HEAD..start]).expect("operations");
        let settings = match opening.remove(0) {
            Operation::New(settings) => settings,
            _ => panic!("a course opens with `new`"),
        };
        let round = scenario::read(&bytes[start..]).expect("operations");
        Course { rounds: field(bytes, 0, 4), settings, opening, round }
    }
}
