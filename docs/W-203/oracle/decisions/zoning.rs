//! Zone pads (W-203): all three filters as gilrs has them, given a hat's event of a zone pad that converts with its zone's own value, and not at all where
//! the zone is the one that is kept. One pad in eight is not a zone pad, and whatever zone is kept beside it changes nothing.

use crate::filtering::{self, View};
use crate::hub::Hub;
use crate::list::{self, List};
use crate::pads;
use crate::random::Random;
use reading::event::{self, Event};
use reading::names;
use reading::sheet::Sheet;

pub const KIND: u8 = 9;

/// A zone by its number in the crate `rules`, with the value that presses its direction.
const ZONES: [(&str, f32); 3] = [("middle", 0.0), ("plus", 1.0), ("minus", -1.0)];

/// The ends of the zones and their neighbours, what lies between and beyond, and both zeros.
const VALUES: [f32; 9] = [0.5, 0.5, 0.499_999_97, 0.500_000_06, 1.0, 0.0, 0.992_187_5, 0.25, 0.75];

fn zone_of(value: f32) -> u8 {
    u8::from(value >= 0.5) + 2 * u8::from(value <= -0.5)
}

pub fn cases(random: &mut Random, list: &mut List) {
    let sheet = pads::sheet(random);
    let (mut hub, _) = pads::hub(random, sheet.clone());
    for _ in 0..list::ROUND {
        let others = [event::PRESSED, event::CHANGED, event::CONNECTED, event::DROPPED];
        let kind = if random.chance(8) { random.among(&others) } else { event::AXIS };
        let mut given = pads::event(random, &sheet, kind);
        on_a_hat(random, &sheet, &mut given);
        filtering::disturbed(random, &mut hub, &sheet, &given);
        let mut seen = filtering::view(&hub, &given);
        seen.zoned = random.chance(88);
        seen.zone = random.below(3) as u8;
        play(&mut hub, &seen, &given, list);
    }
}

/// Nine axis events in ten are a hat's.
fn on_a_hat(random: &mut Random, sheet: &Sheet, given: &mut Event) {
    if given.kind != event::AXIS || random.chance(10) {
        return;
    }
    given.name = random.among(&[names::DPAD_X, names::DPAD_Y]);
    if let Some(element) = sheet.named(given.name) {
        given.code = element.code;
    }
    let sign = if random.chance(50) { 1.0 } else { -1.0 };
    given.bits = (sign * random.among(&VALUES)).to_bits();
}

fn is_hat(given: &Event) -> bool {
    given.kind == event::AXIS && (given.name == names::DPAD_X || given.name == names::DPAD_Y)
}

fn play(hub: &mut Hub, seen: &View, given: &Event, list: &mut List) {
    let zone = zone_of(f32::from_bits(given.bits));
    let by_zones = seen.zoned && seen.converts && is_hat(given);
    let (out, queued) = if !by_zones {
        filtering::filtered(filtering::ALL, hub, given)
    } else if zone == seen.zone {
        (Event { kind: event::DROPPED, name: names::NO_NAME, code: 0, bits: 0, ..*given }, Vec::new())
    } else {
        let bits = ZONES[usize::from(zone)].1.to_bits();
        filtering::filtered(filtering::ALL, hub, &Event { bits, ..*given })
    };
    let after = filtering::view(hub, given);
    let words = if by_zones {
        let (last, now) = (ZONES[usize::from(seen.zone)].0, ZONES[usize::from(zone)].0);
        let held = format!("{}{}", u8::from(seen.positive), u8::from(seen.negative));
        format!("hat from {} to {} held {}: {}", last, now, held, event::WORDS[usize::from(out.kind)].to_lowercase())
    } else {
        let pad = if seen.zoned { "zone pad" } else { "other pad" };
        format!("{}, {}", pad, filtering::arm(filtering::ALL, seen, given, &out, &queued))
    };
    list.add(filtering::case(KIND, seen, given, &out, &queued, &after), format!("zones {}", words));
}
