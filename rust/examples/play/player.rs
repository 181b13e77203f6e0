//! The scenario form's operations as calls of the crate, and their answers as lines. A call goes by its typed form where the operation's bytes have one.

use crate::scenario::{self, Operation};
use copperyarn::{
    apply_deadzone, AxisData, ButtonData, Code, Down, Event, EventType, Hub, Name, PadId, Reason, Refusal, Settings,
    Sheet, Tilt,
};
use std::io::{self, Write};

/// NaN has no bits of its own in the answers: each is written as this one.
const NAN_BITS: u32 = 0x7fc0_0000;

/// Plays all operations, and writes one line per answer and event.
pub fn play(operations: &[Operation<'_>], out: &mut impl Write) -> io::Result<()> {
    let mut hub = None;
    for operation in operations {
        for line in answer(&mut hub, operation) {
            writeln!(out, "{line}")?;
        }
    }
    Ok(())
}

/// Plays one operation on the hub, if one stands: its lines.
pub fn answer(hub: &mut Option<Hub>, operation: &Operation<'_>) -> Vec<String> {
    let answers = match (operation, hub.as_mut()) {
        (Operation::New(settings), _) => {
            *hub = None;
            open(settings).map(|fresh| {
                *hub = Some(fresh);
                vec!["HUB".to_string()]
            })
        }
        (_, None) => Ok(vec!["NO HUB".to_string()]),
        (operation, Some(hub)) => answers(hub, operation),
    };
    answers.unwrap_or_else(|refusal| vec![refused(refusal)])
}

fn refused(refusal: Refusal) -> String {
    format!("REFUSED {}", refusal.number())
}

fn open(settings: &scenario::Settings) -> Result<Hub, Refusal> {
    Hub::new(Settings {
        pressed: settings.pressed,
        released: settings.released,
        reversed_y: settings.has(scenario::Y_REVERSED),
        filters: settings.has(scenario::FILTERS_ON),
        updates: settings.has(scenario::UPDATES_ON),
    })
}

fn answers(hub: &mut Hub, operation: &Operation<'_>) -> Result<Vec<String>, Refusal> {
    let line = match *operation {
        Operation::New(_) => unreachable!("played above"),
        Operation::Pump(call) => return Ok(pump(hub, &call)),
        Operation::Dump => return dump(hub),
        Operation::Register(sheet) => format!("PAD {}", hub.register(&Sheet::from_bytes(sheet))?),
        Operation::RegisterArchived(sheet) => format!("PAD {}", hub.register_archived(&Sheet::from_bytes(sheet))?),
        Operation::Rename(pad, list) => {
            let names: Vec<Name> = list.iter().copied().map(Name).collect();
            hub.rename(PadId(pad), &names).map(|()| "RENAMED".to_string())?
        }
        Operation::Update(bytes) => update(hub, bytes).map(|()| "UPDATED".to_string())?,
        Operation::Insert(bytes) => insert(hub, bytes).map(|()| "INSERTED".to_string())?,
        Operation::Repeat { after, every, now } => {
            hub.repeat(after, every, now)?.map_or("NONE".to_string(), |event| event_line(&event))
        }
        Operation::Inc => {
            hub.inc();
            counter_line(hub)
        }
        Operation::Counter => counter_line(hub),
        Operation::ResetCounter => {
            hub.reset_counter();
            counter_line(hub)
        }
        Operation::ByCode(opcode, pad, code) => by_code(hub, opcode, PadId(pad), Code(code))?,
        Operation::ByName(opcode, pad, name) => by_name(hub, opcode, PadId(pad), Name(name))?,
        Operation::Stands(pad) => format!("STANDS {}", u8::from(hub.is_connected(PadId(pad))?)),
        Operation::IsOld(pad) => format!("IS {}", u8::from(hub.is_old(PadId(pad))?)),
        Operation::Down(pad) => down_line(hub.down(PadId(pad))?),
        Operation::LowestPressed(pad) => {
            or_absent("CODE", hub.lowest_pressed(PadId(pad))?.map(|code| code.to_string()))
        }
        Operation::Waiting => format!("WAITING {}", hub.waiting()),
        Operation::Deadzone { x, y, threshold } => calculated(x, y, threshold),
    };
    Ok(vec![line])
}

fn down_line(down: Down) -> String {
    format!("DOWN {} {}", down.count, u8::from(down.axis))
}

fn counter_line(hub: &Hub) -> String {
    format!("COUNTER {}", hub.counter())
}

// ---- events

fn update(hub: &mut Hub, bytes: &[u8]) -> Result<(), Refusal> {
    match Event::from_bytes(bytes) {
        Ok(event) => hub.update(&event),
        Err(_) => hub.update_bytes(bytes),
    }
}

fn insert(hub: &mut Hub, bytes: &[u8]) -> Result<(), Refusal> {
    match Event::from_bytes(bytes) {
        Ok(event) => hub.insert_event(&event),
        Err(_) => hub.insert_event_bytes(bytes),
    }
}

fn pump(hub: &mut Hub, call: &scenario::Pump<'_>) -> Vec<String> {
    let mut out = vec![0; call.out];
    let report = hub.pump(call.batch, call.place, &mut out, call.allowance as u16);
    let reason = match report.reason {
        Reason::Drained => "DRAINED".to_string(),
        Reason::Full => "FULL".to_string(),
        Reason::Paused => "PAUSED".to_string(),
        Reason::Refused(refusal) => refused(refusal),
    };
    let mut lines: Vec<String> = report.written(&out).map(|event| event_line(&event)).collect();
    lines.push(format!("{} {} {} {}", reason, report.place, report.events, report.steps));
    if call.tilt {
        lines.push(format!("TILT {}", report.tilt.map_or("NONE", tilt_word)));
    }
    lines
}

fn calculated(x: f32, y: f32, threshold: f32) -> String {
    let ((x, y), tilt) = apply_deadzone(x, y, threshold);
    let bits = |value: f32| if value.is_nan() { NAN_BITS } else { value.to_bits() };
    format!("PAIR {:08x} {:08x} {}", bits(x), bits(y), tilt_word(tilt))
}

fn tilt_word(tilt: Tilt) -> &'static str {
    match tilt {
        Tilt::Inside => "INSIDE",
        Tilt::Between => "BETWEEN",
        Tilt::Full => "FULL",
    }
}

fn event_line(event: &Event) -> String {
    let none = (Name::NONE, Code(0), 0.0);
    let (word, (name, code, value)) = match event.event {
        EventType::ButtonPressed(button, code) => ("PRESSED", (button.into(), code, 0.0)),
        EventType::ButtonReleased(button, code) => ("RELEASED", (button.into(), code, 0.0)),
        EventType::ButtonRepeated(button, code) => ("REPEATED", (button.into(), code, 0.0)),
        EventType::ButtonChanged(button, value, code) => ("CHANGED", (button.into(), code, value)),
        EventType::AxisChanged(axis, value, code) => ("AXIS", (axis.into(), code, value)),
        EventType::Connected => ("CONNECTED", none),
        EventType::Disconnected => ("DISCONNECTED", none),
        EventType::Dropped => ("DROPPED", none),
    };
    format!("{} {} {} {} {:08x} {}", word, event.id, name.0, code, value.to_bits(), event.time)
}

// ---- queries

fn by_code(hub: &Hub, opcode: u8, pad: PadId, code: Code) -> Result<String, Refusal> {
    Ok(match opcode {
        scenario::PRESSED_BY_CODE => format!("IS {}", u8::from(hub.is_pressed_by_code(pad, code)?)),
        scenario::VALUE_BY_CODE => format!("VALUE {:08x}", hub.value_by_code(pad, code)?.to_bits()),
        scenario::BUTTON_BY_CODE => or_absent("BUTTON", hub.button_data_by_code(pad, code)?.map(button_words)),
        scenario::AXIS_BY_CODE => or_absent("STICK", hub.axis_data_by_code(pad, code)?.map(axis_words)),
        scenario::HELD_SINCE => {
            or_absent("SINCE", hub.button_data_by_code(pad, code)?.map(|data| data.since().to_string()))
        }
        scenario::NAME_OF_CODE => {
            format!("NAME {}", hub.axis_or_btn_name(pad, code)?.map_or(Name::NONE, Name::from).0)
        }
        _ => or_absent("THRESHOLD", hub.deadzone(pad, code)?.map(|value| format!("{:08x}", value.to_bits()))),
    })
}

/// By a button or an axis where the byte is one; else by the byte, which the hub judges.
fn by_name(hub: &Hub, opcode: u8, pad: PadId, name: Name) -> Result<String, Refusal> {
    Ok(match opcode {
        scenario::PRESSED_BY_NAME => {
            let is =
                name.button().map_or_else(|| hub.is_pressed_by_name(pad, name), |button| hub.is_pressed(pad, button));
            format!("IS {}", u8::from(is?))
        }
        scenario::VALUE_BY_NAME => {
            let value = name.axis().map_or_else(|| hub.value_by_name(pad, name), |axis| hub.value(pad, axis));
            format!("VALUE {:08x}", value?.to_bits())
        }
        scenario::BUTTON_BY_NAME => {
            let data =
                name.button().map_or_else(|| hub.button_data_by_name(pad, name), |button| hub.button_data(pad, button));
            or_absent("BUTTON", data?.map(button_words))
        }
        scenario::AXIS_BY_NAME => {
            let data = name.axis().map_or_else(|| hub.axis_data_by_name(pad, name), |axis| hub.axis_data(pad, axis));
            or_absent("STICK", data?.map(axis_words))
        }
        _ => {
            let code = match (name.button(), name.axis()) {
                (Some(button), _) => hub.button_code(pad, button),
                (_, Some(axis)) => hub.axis_code(pad, axis),
                _ => hub.code_by_name(pad, name),
            };
            or_absent("CODE", code?.map(|code| code.to_string()))
        }
    })
}

fn or_absent(word: &str, found: Option<String>) -> String {
    found.map_or("ABSENT".to_string(), |words| format!("{word} {words}"))
}

fn button_words(data: ButtonData) -> String {
    let (pressed, repeating) = (u8::from(data.is_pressed()), u8::from(data.is_repeating()));
    format!("{:08x} {} {} {} {}", data.value().to_bits(), pressed, repeating, data.counter(), data.timestamp())
}

fn axis_words(data: AxisData) -> String {
    format!("{:08x} {} {}", data.value().to_bits(), data.counter(), data.timestamp())
}

// ---- the dump: hats and flags, which no query reads, from the hub's fields

fn dump(hub: &Hub) -> Result<Vec<String>, Refusal> {
    let head = &hub.fields().head;
    let mut lines = Vec::new();
    for pad in (0..head.pads).map(PadId) {
        let at = usize::from(pad);
        let hats = if head.renamed[at] { head.newhats[at] } else { head.hats[at] };
        lines.push(format!("DUMP {} {} {}", pad, u8::from(hub.is_connected(pad)?), hats));
        lines.extend(hub.buttons(pad)?.map(|(code, data)| format!("B {} {}", code, button_words(data))));
        lines.extend(hub.axes(pad)?.map(|(code, data)| format!("A {} {}", code, axis_words(data))));
        let flags: String = head.flags[6 * at..][..6].iter().map(|flag| if *flag { '1' } else { '0' }).collect();
        lines.push(format!("FLAGS {flags}"));
    }
    lines.push(format!("END {} {}", hub.counter(), hub.waiting()));
    Ok(lines)
}
