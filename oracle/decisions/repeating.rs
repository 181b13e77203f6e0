//! Repeat: one code's record and a clock, and what the crate's Repeat answers for them.

use crate::list::{self, Case, List, OUT};
use crate::pads;
use crate::random::Random;
use crate::translate::{from_crate, instant, microseconds, name_number};
use gilrs::ev::filter::{FilterFn, Repeat};
use gilrs::ev::AxisOrBtn;
use gilrs::window;
use std::time::Duration;

pub const KIND: u8 = 8;

pub fn cases(random: &mut Random, list: &mut List) {
    let sheet = pads::sheet(random);
    let (mut hub, _) = pads::hub(random, sheet.clone());
    let code = pads::code(random, &sheet);
    pads::disturb(random, &mut hub, &sheet, code);
    let handle = window::code(code);
    let data = hub.pad(0).state().button_data(handle).copied();
    let stamp = data.map_or(500_000, |data| microseconds(data.timestamp()));
    let (after, every) = (random.among(&[0, 1, 500, 30_000]), random.among(&[1, 30, 30_000]));
    let name = hub.pad(0).axis_or_btn_name(handle);
    for _ in 0..list::ROUND {
        let wait = random.among(&[after, every]);
        let now = (stamp + wait).saturating_add(random.below(3)).saturating_sub(random.among(&[1, 1, 2, wait + 2]));
        gilrs_core::utils::set_time_now(instant(now));
        let filter = Repeat { after: Duration::from_micros(after), every: Duration::from_micros(every) };
        let answer = filter.filter(None, &mut hub.gilrs).map(|event| from_crate(&event));
        let pressed = data.map_or(false, |data| data.is_pressed());
        let repeating = data.map_or(false, |data| data.is_repeating());
        let tests = list::marks(&[data.is_some(), pressed, repeating, answer.is_some()]);
        let mut case = Case::new(KIND, tests, 0, name_number(name));
        case.put(1, &[stamp as u32, after as u32, every as u32, now as u32, code]);
        answer.iter().for_each(|event| case.event(OUT, event));
        let sort = match name {
            Some(AxisOrBtn::Btn(_)) => "button",
            Some(AxisOrBtn::Axis(_)) => "axis",
            None => "unnamed",
        };
        let record = if data.is_none() {
            "none"
        } else if !pressed {
            "released"
        } else if repeating {
            "repeating"
        } else {
            "pressed"
        };
        let clock = if now < stamp {
            "before its stamp"
        } else if answer.is_some() {
            "due"
        } else {
            "waits"
        };
        list.add(case, format!("repeat of {}, {}: {}", sort, record, clock));
    }
}
