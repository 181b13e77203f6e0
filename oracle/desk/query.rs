//! The state queries, in the order of refusals 6, 16.

use crate::hub::{axis_words, button_words, Hub};
use crate::translate::{axis, button, name_number};
use gilrs::window;
use reading::{names, refusal, scenario};

pub fn by_code(hub: &Hub, opcode: u8, pad: usize, code: u32) -> String {
    let handle = hub.pad(pad);
    let code = window::code(code);
    match opcode {
        scenario::PRESSED_BY_CODE => format!("IS {}", u8::from(handle.state().is_pressed(code))),
        scenario::VALUE_BY_CODE => format!("VALUE {:08x}", handle.state().value(code).to_bits()),
        scenario::BUTTON_BY_CODE => or_absent("BUTTON", handle.state().button_data(code).map(button_words)),
        scenario::AXIS_BY_CODE => or_absent("STICK", handle.state().axis_data(code).map(axis_words)),
        scenario::NAME_OF_CODE => format!("NAME {}", name_number(handle.axis_or_btn_name(code))),
        _ => or_absent("THRESHOLD", handle.deadzone(code).map(|value| format!("{:08x}", value.to_bits()))),
    }
}

pub fn by_name(hub: &Hub, opcode: u8, pad: usize, name: u8) -> String {
    let sort_stands = match opcode {
        scenario::PRESSED_BY_NAME | scenario::BUTTON_BY_NAME => names::is_button_name(name),
        scenario::VALUE_BY_NAME | scenario::AXIS_BY_NAME => names::is_axis_name(name),
        _ => names::is_button_name(name) || names::is_axis_name(name),
    };
    if !sort_stands {
        return format!("REFUSED {}", refusal::NO_NAME);
    }
    let handle = hub.pad(pad);
    match opcode {
        scenario::PRESSED_BY_NAME => format!("IS {}", u8::from(handle.is_pressed(button(name)))),
        scenario::VALUE_BY_NAME => format!("VALUE {:08x}", handle.value(axis(name)).to_bits()),
        scenario::BUTTON_BY_NAME => or_absent("BUTTON", handle.button_data(button(name)).map(button_words)),
        scenario::AXIS_BY_NAME => or_absent("STICK", handle.axis_data(axis(name)).map(axis_words)),
        _ => {
            let code = if names::is_button_name(name) {
                handle.button_code(button(name))
            } else {
                handle.axis_code(axis(name))
            };
            or_absent("CODE", code.map(|code| format!("{:08x}", code.into_u32())))
        }
    }
}

fn or_absent(word: &str, found: Option<String>) -> String {
    found.map_or("ABSENT".to_string(), |words| format!("{} {}", word, words))
}
