//! The player's desk: one hub of 01, played on gilrs. A call that 01 refuses is answered by number and not given to the
//! crate. This crate is built twice, over gilrs with the Y axis reversed and not.

mod down;
mod held;
mod hub;
mod old;
mod own_loop;
mod plan;
mod pump;
mod query;
mod repeat;
mod tilt;
mod translate;

use crate::held::Held;
use crate::hub::Hub;
use crate::old::Old;
use crate::own_loop::OwnLoop;
use crate::plan::Plan;
use crate::tilt::Calculation;
use crate::translate::to_crate;
use reading::event::Event;
use reading::scenario::{self, Operation, Pump, Settings};
use reading::sheet::{self, Sheet};
use reading::{refusal, Desk, INSERT_LIMIT, MOST_PADS};

struct CrateDesk {
    settings: Settings,
    plan: Plan,
    registered: usize,
    hub: Hub,
    held: Held,
    old: Old,
    own_loop: OwnLoop,
}

/// Opens a desk for the operations `ahead`, of which it reads the sheets and rename lists up to the next `new`; with
/// `own_loop`, it compares with the crate's own loop too.
pub fn open(settings: Settings, ahead: &[Operation<'_>], own_loop: bool) -> Box<dyn Desk> {
    let plan = Plan::of(ahead);
    Box::new(CrateDesk {
        settings,
        registered: 0,
        hub: Hub::open(&settings, &plan, false, false),
        held: Held::default(),
        old: Old::default(),
        own_loop: if own_loop { OwnLoop::open(&settings, &plan) } else { OwnLoop::absent() },
        plan,
    })
}

impl Desk for CrateDesk {
    fn play(&mut self, operation: &Operation<'_>) -> Vec<String> {
        match self.answer(operation) {
            Ok(lines) => lines,
            Err(number) => one(format!("REFUSED {}", number)),
        }
    }

    fn compared(&self) -> (u64, u64) {
        (self.own_loop.compared, self.own_loop.left_out)
    }
}

fn one(line: impl Into<String>) -> Vec<String> {
    vec![line.into()]
}

impl CrateDesk {
    fn answer(&mut self, operation: &Operation<'_>) -> Result<Vec<String>, u8> {
        Ok(match *operation {
            Operation::New(_) => unreachable!("`new` opens another desk"),
            Operation::Register(bytes) => self.register(|| Sheet::read(bytes))?,
            Operation::RegisterArchived(bytes) => self.register_archived(bytes)?,
            Operation::Rename(pad, list) => self.rename(pad, list)?,
            Operation::Pump(call) => self.pump(&call),
            Operation::Update(bytes) => self.update(bytes)?,
            Operation::Insert(bytes) => self.insert(bytes)?,
            Operation::Repeat { after, every, now } => {
                refusal::of_repeat(after, every, now)?;
                one(repeat::repeat(&mut self.hub, after, every, now))
            }
            Operation::Inc => self.count(|hub| hub.gilrs.inc()),
            Operation::Counter => self.count(|_| ()),
            Operation::ResetCounter => self.count(|hub| hub.gilrs.reset_counter()),
            Operation::ByCode(scenario::HELD_SINCE, pad, code) => one(self.held.since(&self.hub, self.pad(pad)?, code)),
            Operation::ByCode(opcode, pad, code) => one(query::by_code(&self.hub, opcode, self.pad(pad)?, code)),
            Operation::ByName(opcode, pad, name) => one(query::by_name(&self.hub, opcode, self.pad(pad)?, name)),
            Operation::Stands(pad) => one(format!("STANDS {}", u8::from(self.hub.pad(self.pad(pad)?).is_connected()))),
            Operation::Down(pad) => one(down::down(&self.hub, &self.plan.pads, self.pad(pad)?)),
            Operation::LowestPressed(pad) => one(down::lowest(&self.hub, self.pad(pad)?)),
            Operation::IsOld(pad) => one(self.old.line(&self.hub, self.pad(pad)?)),
            Operation::Waiting => one(format!("WAITING {}", self.hub.waiting())),
            Operation::Dump => self.dump(),
            Operation::Deadzone { x, y, threshold } => one(Calculation { x, y, threshold }.line()),
        })
    }

    /// The pad, or refusal 6.
    fn pad(&self, pad: u8) -> Result<usize, u8> {
        let pad = usize::from(pad);
        if pad < self.registered {
            Ok(pad)
        } else {
            Err(refusal::NO_PAD)
        }
    }

    /// Either call: 2, then what its reading of the sheet refuses.
    fn register(&mut self, read: impl FnOnce() -> Result<Sheet, u8>) -> Result<Vec<String>, u8> {
        if self.registered == MOST_PADS {
            return Err(refusal::FOUR_PADS);
        }
        read()?;
        self.registered += 1;
        Ok(one(format!("PAD {}", self.registered - 1)))
    }

    fn register_archived(&mut self, bytes: &[u8]) -> Result<Vec<String>, u8> {
        let lines = self.register(|| Sheet::read_archived(bytes))?;
        let pad = self.registered - 1;
        self.old.archived(pad, &self.plan.pads[pad]);
        Ok(lines)
    }

    /// Rename: 6, 7, 3, 4, 5. Waiting events stay.
    fn rename(&mut self, pad: u8, list: &[u8]) -> Result<Vec<String>, u8> {
        let pad = self.pad(pad)?;
        if !self.hub.pad(pad).is_connected() {
            return Err(refusal::DISCONNECTED);
        }
        sheet::judge_rename(list, &self.plan.pads[pad])?;
        let waiting = self.hub.take_waiting();
        self.hub.rename(pad, &self.plan, list);
        for event in &waiting {
            self.hub.gilrs.insert_event(*event);
        }
        self.old.renamed(pad);
        self.own_loop.rename(pad, &self.plan, list, waiting.len());
        Ok(one("RENAMED"))
    }

    fn pump(&mut self, call: &Pump<'_>) -> Vec<String> {
        let pads = &self.plan.pads[..self.registered];
        let done = pump::pump(&mut self.hub, &mut self.held, pads, &self.settings, call);
        self.old.took(&done.records);
        self.own_loop.pump(&done);
        let mut lines = done.lines();
        if call.tilt {
            lines.push(tilt::line(done.tilt));
        }
        lines
    }

    fn update(&mut self, bytes: &[u8]) -> Result<Vec<String>, u8> {
        let event = Event::read(bytes, &self.plan.pads[..self.registered])?;
        self.held.update(&mut self.hub, &to_crate(&event));
        self.own_loop.follow(|hub| hub.update(&event));
        Ok(one("UPDATED"))
    }

    fn insert(&mut self, bytes: &[u8]) -> Result<Vec<String>, u8> {
        let event = Event::read(bytes, &self.plan.pads[..self.registered])?;
        if self.hub.waiting() >= INSERT_LIMIT {
            return Err(refusal::QUEUE);
        }
        self.hub.insert(&event);
        self.own_loop.follow(|hub| hub.insert(&event));
        Ok(one("INSERTED"))
    }

    fn count(&mut self, call: impl Fn(&mut Hub)) -> Vec<String> {
        call(&mut self.hub);
        self.own_loop.follow(&call);
        one(format!("COUNTER {}", self.hub.gilrs.counter()))
    }

    fn dump(&mut self) -> Vec<String> {
        let mut lines = Vec::new();
        for pad in 0..self.registered {
            let state = self.hub.dump(pad);
            self.own_loop.compare_dump(pad, &state);
            lines.extend(state);
        }
        let waiting = self.hub.waiting();
        lines.push(format!("END {} {}", self.hub.gilrs.counter(), waiting));
        lines
    }
}
