//! The filters: what they see of the hub, the event, and what each hands on.

use crate::hub::Hub;
use crate::list::{self, Case, List, GIVEN, OUT, QUEUED};
use crate::pads;
use crate::random::Random;
use crate::translate::{axis, from_crate, to_crate};
use gilrs::ev::filter::{axis_dpad_to_button, deadzone, Jitter};
use gilrs::{window, Axis, Button, Filter, Gamepad};
use reading::event::{self, Event};
use reading::names::{self, DIRECTIONS};
use reading::sheet::Sheet;

/// What the kinds 1 to 5 of cases play: all three filters, one of them, or none.
const ALL: u8 = 1;
const DPAD: u8 = 2;
const JITTER: u8 = 3;
const DEADZONE: u8 = 4;
const WORDS: [&str; 6] = ["", "all", "dpad", "jitter", "deadzone", "off"];

/// As the type of the same name in the crate `rules`.
struct View {
    converts: bool,
    positive: bool,
    negative: bool,
    stored: Option<f32>,
    threshold: Option<f32>,
    own: f32,
    partner: Option<(u32, f32)>,
    own_flag: bool,
    partner_flag: bool,
}

/// The test of `axis_dpad_to_button`, asked of the pad from outside.
fn converts(pad: &Gamepad<'_>, hats: u8) -> bool {
    let unnamed = |code: &u32| pad.axis_or_btn_name(window::code(*code)).is_none();
    hats == 15 || hats == 0 && DIRECTIONS.iter().all(unnamed) && pad.button_code(Button::DPadRight).is_none()
}

/// The axis's place among the pad's flags.
fn flag(flags: [bool; 6], axis: Axis) -> bool {
    let order = [Axis::DPadX, Axis::DPadY, Axis::LeftStickX, Axis::LeftStickY, Axis::RightStickX, Axis::RightStickY];
    order.iter().position(|known| *known == axis).map_or(false, |at| flags[at])
}

fn view(hub: &Hub, given: &Event) -> View {
    let pad = hub.pad(0);
    let code = window::code(given.code);
    let (right, left) = if given.name == names::DPAD_X { (3, 2) } else { (0, 1) };
    let pressed = |at: usize| pad.state().is_pressed(window::code(DIRECTIONS[at]));
    let name = if given.kind == event::AXIS { axis(given.name) } else { Axis::Unknown };
    let flags = window::flags(&hub.gilrs, 0);
    View {
        converts: converts(&pad, window::hats(&hub.gilrs, 0)),
        positive: pressed(right),
        negative: pressed(left),
        stored: pad.state().axis_data(code).map(|data| data.value()),
        threshold: pad.deadzone(code),
        own: pad.state().value(code),
        partner: name
            .second_axis()
            .and_then(|other| pad.axis_code(other))
            .map(|code| (code.into_u32(), pad.state().value(code))),
        own_flag: flag(flags, name),
        partner_flag: name.second_axis().map_or(false, |other| flag(flags, other)),
    }
}

pub fn cases(kind: u8, random: &mut Random, list: &mut List) {
    let sheet = pads::sheet(random);
    let (mut hub, _) = pads::hub(random, sheet.clone());
    for _ in 0..list::ROUND {
        let others = [event::PRESSED, event::RELEASED, event::REPEATED, 6, 7, event::DROPPED];
        let event_kind = match random.below(10) {
            0 => random.among(&others),
            1 | 2 => event::CHANGED,
            _ => event::AXIS,
        };
        let mut given = pads::event(random, &sheet, event_kind);
        on_a_hat(random, &sheet, &mut given);
        disturbed(random, &mut hub, &sheet, &given);
        beside_stored(random, &hub, &mut given);
        play(kind, &mut hub, &given, list);
    }
}

/// Records of the event's code, its partner's and the directions, and the flags.
fn disturbed(random: &mut Random, hub: &mut Hub, sheet: &Sheet, given: &Event) {
    pads::disturb(random, hub, sheet, given.code);
    for code in DIRECTIONS {
        pads::disturb(random, hub, sheet, code);
    }
    if let (event::AXIS, Some((code, _))) = (given.kind, view(hub, given).partner) {
        let bits = if random.chance(60) { pads::value(random) / 16.0 } else { pads::value(random) }.to_bits();
        hub.update(&Event { kind: event::AXIS, pad: 0, name: names::UNKNOWN_AXIS, code, bits, time: 0 });
    }
    let flags = [0; 6].map(|_: u8| random.chance(60));
    window::restore_flags(&mut hub.gilrs, 0, flags);
}

/// A quarter of the axis events are a hat's, half of those at an end.
fn on_a_hat(random: &mut Random, sheet: &Sheet, given: &mut Event) {
    if given.kind != event::AXIS || !random.chance(25) {
        return;
    }
    given.name = random.among(&[names::DPAD_X, names::DPAD_Y]);
    if let Some(element) = sheet.elements.iter().find(|element| element.name == given.name) {
        given.code = element.code;
    }
    if random.chance(50) {
        given.bits = random.among(&[1.0_f32, -1.0]).to_bits();
    }
}

/// Two in five lie near the stored value, or are small.
fn beside_stored(random: &mut Random, hub: &Hub, given: &mut Event) {
    if !given.has_value() || f32::from_bits(given.bits).abs() == 1.0 {
        return;
    }
    let own = hub.pad(0).state().value(window::code(given.code));
    let moved = match random.below(5) {
        0 => own + (random.between(-15, 15) as f32) / 1_000.0,
        1 => pads::value(random) / 16.0,
        _ => return,
    };
    given.bits = moved.clamp(-1.0, 1.0).to_bits();
}

fn play(kind: u8, hub: &mut Hub, given: &Event, list: &mut List) {
    let seen = view(hub, given);
    let event = Some(to_crate(given));
    let gilrs = &mut hub.gilrs;
    let out = match kind {
        1 => event.filter_ev(&axis_dpad_to_button, gilrs).filter_ev(&Jitter::new(), gilrs).filter_ev(&deadzone, gilrs),
        DPAD => event.filter_ev(&axis_dpad_to_button, gilrs),
        JITTER => event.filter_ev(&Jitter::new(), gilrs),
        DEADZONE => event.filter_ev(&deadzone, gilrs),
        _ => event,
    };
    let mut out = from_crate(&out.expect("an event"));
    if out.kind == event::DROPPED {
        out.time = given.time; // the crate stamps a dropped event anew, and nobody sees it
    }
    let queued: Vec<Event> = hub.take_waiting().iter().map(from_crate).collect();
    let after = view(hub, given);
    let arm = format!("{} {}", WORDS[usize::from(kind)], arm(kind, &seen, given, &out, &queued));
    list.add(case(kind, &seen, given, &out, &queued, &after), arm);
}

fn case(kind: u8, seen: &View, given: &Event, out: &Event, queued: &[Event], after: &View) -> Case {
    let (code, value) = seen.partner.unwrap_or((0, 0.0));
    let tests = [
        seen.converts,
        seen.positive,
        seen.negative,
        seen.stored.is_some(),
        seen.threshold.is_some(),
        seen.partner.is_some(),
        seen.own_flag,
        seen.partner_flag,
    ];
    let flags = list::marks(&[after.own_flag, after.partner_flag]);
    let mut case = Case::new(kind, list::marks(&tests), flags, queued.len() as u8);
    let stick = seen.stored.unwrap_or(0.0).to_bits();
    let threshold = seen.threshold.unwrap_or(0.0).to_bits();
    case.put(1, &[stick, threshold, seen.own.to_bits(), code, value.to_bits()]);
    case.event(GIVEN, given);
    case.event(OUT, out);
    queued.iter().enumerate().for_each(|(at, event)| case.event(QUEUED + 4 * at, event));
    case
}

/// The arm of the decision that the case met, in words.
fn arm(kind: u8, seen: &View, given: &Event, out: &Event, queued: &[Event]) -> String {
    let word = event::WORDS[usize::from(given.kind)].to_lowercase();
    let of_axis = given.kind == event::AXIS;
    let hat = of_axis && (given.name == names::DPAD_X || given.name == names::DPAD_Y);
    let value = f32::from_bits(given.bits);
    if hat && seen.converts && (kind == ALL || kind == DPAD) {
        let sent = event::WORDS[usize::from(out.kind)].to_lowercase();
        return format!("hat {} held {}{}: {}", end(value), u8::from(seen.positive), u8::from(seen.negative), sent);
    }
    if !given.has_value() {
        return format!("{}: passes", word);
    }
    let of_hat = if hat && kind == DPAD { " of a hat" } else { "" };
    let beside = if of_axis && (kind == ALL || kind == JITTER) { stored(seen, value) } else { "" };
    let zoned = if kind == ALL || kind == DEADZONE { zone(seen, !queued.is_empty()) } else { "" };
    format!("{}{}{}{}: {}", word, of_hat, beside, zoned, sent(out))
}

fn end(value: f32) -> &'static str {
    match (value == 1.0, value == -1.0) {
        (true, _) => "up",
        (_, true) => "down",
        _ => "rests",
    }
}

fn stored(seen: &View, value: f32) -> &'static str {
    match (seen.stored, value == 0.0) {
        (None, _) => ", no record",
        (_, true) => ", zero",
        _ => ", record",
    }
}

fn sent(out: &Event) -> &'static str {
    match (out.kind, f32::from_bits(out.bits) == 0.0) {
        (event::DROPPED, _) => "dropped",
        (_, true) => "sends 0",
        _ => "sends a value",
    }
}

/// Whether there is a threshold and a partner, and which test of the clearing, if any, spared the partner.
fn zone(seen: &View, clears: bool) -> &'static str {
    match (seen.threshold, seen.partner) {
        (None, _) => ", no threshold",
        (_, None) => ", single",
        (_, Some(_)) if clears => ", pair, clears",
        (_, Some((_, value))) if value == 0.0 => ", pair, partner at 0",
        _ if !seen.partner_flag => ", pair, no flag",
        _ => ", pair",
    }
}
