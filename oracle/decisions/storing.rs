//! State: the two records of a code before an event and after its `update`, and what is read of them before.

use crate::hub::Hub;
use crate::list::{self, Case, List, GIVEN};
use crate::pads;
use crate::random::Random;
use crate::translate::microseconds;
use gilrs::ev::state::{AxisData, ButtonData};
use gilrs::window;
use reading::event;

pub const KIND: u8 = 7;

type Records = (Option<ButtonData>, Option<AxisData>);

fn records(hub: &Hub, code: u32) -> Records {
    let pad = hub.pad(0);
    let code = window::code(code);
    (pad.state().button_data(code).copied(), pad.state().axis_data(code).copied())
}

fn tests(records: &Records) -> u8 {
    let button = records.0;
    list::marks(&[
        button.is_some(),
        button.map_or(false, |data| data.is_pressed()),
        button.map_or(false, |data| data.is_repeating()),
        records.1.is_some(),
    ])
}

/// Value bits, stamp and counter of the button record and of the axis record; zeros for one that is not there.
fn words(records: &Records) -> [u32; 6] {
    let of = |value: f32, stamp, counter: u64| [value.to_bits(), microseconds(stamp) as u32, counter as u32];
    let button = records.0.map_or([0; 3], |data| of(data.value(), data.timestamp(), data.counter()));
    let axis = records.1.map_or([0; 3], |data| of(data.value(), data.timestamp(), data.counter()));
    [button[0], button[1], button[2], axis[0], axis[1], axis[2]]
}

pub fn cases(random: &mut Random, list: &mut List) {
    let sheet = pads::sheet(random);
    let (mut hub, _) = pads::hub(random, sheet.clone());
    for _ in 0..list::ROUND {
        let kind = random.between(1, 8) as u8;
        let code = pads::code(random, &sheet);
        let mut given = pads::event(random, &sheet, kind);
        if kind <= event::AXIS {
            given.code = code;
        }
        if random.chance(50) {
            pads::disturb(random, &mut hub, &sheet, code);
        }
        let before = records(&hub, code);
        let handle = window::code(code);
        let pressed = hub.pad(0).state().is_pressed(handle);
        let value = hub.pad(0).state().value(handle);
        let counter = hub.gilrs.counter();
        hub.update(&given);
        let after = records(&hub, code);
        let mut case = Case::new(KIND, tests(&before), tests(&after), u8::from(pressed));
        case.put(GIVEN + 4, &words(&before));
        case.put(GIVEN + 10, &words(&after));
        case.put(GIVEN + 16, &[counter as u32, value.to_bits()]);
        case.event(GIVEN, &given);
        let word = event::WORDS[usize::from(kind)].to_lowercase();
        let known = |stands: bool| if stands { "known" } else { "new" };
        let arm = format!("state {}, button {}, axis {}", word, known(before.0.is_some()), known(before.1.is_some()));
        list.add(case, arm);
    }
}
