//! The structs lie in memory as the library has them (x86-64, the C layout).

use copperyarn::layout::*;
use std::mem::{align_of, offset_of, size_of};

#[test]
fn the_head_has_120_bytes() {
    assert_eq!((size_of::<Head>(), align_of::<Head>()), (120, 8));
    assert_eq!(offset_of!(Head, pressed), 0);
    assert_eq!(offset_of!(Head, released), 4);
    assert_eq!(offset_of!(Head, reversed), 8);
    assert_eq!(offset_of!(Head, filters), 9);
    assert_eq!(offset_of!(Head, updates), 10);
    assert_eq!(offset_of!(Head, counter), 16);
    assert_eq!(offset_of!(Head, down), 24);
    assert_eq!(offset_of!(Head, pads), 56);
    assert_eq!(offset_of!(Head, counts), 57);
    assert_eq!(offset_of!(Head, connected), 61);
    assert_eq!(offset_of!(Head, hats), 65);
    assert_eq!(offset_of!(Head, converts), 69);
    assert_eq!(offset_of!(Head, renamed), 73);
    assert_eq!(offset_of!(Head, newhats), 77);
    assert_eq!(offset_of!(Head, newconverts), 81);
    assert_eq!(offset_of!(Head, held), 85);
    assert_eq!(offset_of!(Head, heldaxes), 89);
    assert_eq!(offset_of!(Head, flags), 93);
    assert_eq!(offset_of!(Head, head), 117);
    assert_eq!(offset_of!(Head, waiting), 118);
}

#[test]
fn the_answers_have_their_sizes() {
    assert_eq!((size_of::<Pad>(), size_of::<Truth>(), size_of::<Due>()), (2, 2, 2));
    assert_eq!((size_of::<Down>(), offset_of!(Down, count), offset_of!(Down, axis)), (3, 1, 2));
    assert_eq!((size_of::<Value>(), offset_of!(Value, value)), (8, 4));
    assert_eq!((size_of::<Number>(), offset_of!(Number, number)), (8, 4));
    assert_eq!((size_of::<Button>(), offset_of!(Button, value), offset_of!(Button, stamp)), (32, 4, 8));
    assert_eq!((offset_of!(Button, counter), offset_of!(Button, since)), (16, 24));
    assert_eq!((size_of::<Axis>(), offset_of!(Axis, value), offset_of!(Axis, stamp)), (24, 4, 8));
    assert_eq!((size_of::<Report>(), offset_of!(Report, place), offset_of!(Report, steps)), (32, 8, 24));
    assert_eq!((offset_of!(Report, reason), offset_of!(Report, tilt)), (1, 2));
    assert_eq!((size_of::<TiltedPair>(), offset_of!(TiltedPair, y), offset_of!(TiltedPair, tilt)), (12, 4, 8));
}

#[test]
fn the_changed_head_comes_first() {
    assert_eq!((size_of::<Done>(), offset_of!(Done, refusal)), (128, 120));
    assert_eq!((size_of::<Registered>(), offset_of!(Registered, pad)), (128, 120));
    assert_eq!((size_of::<Pumped>(), offset_of!(Pumped, report)), (152, 120));
}

#[test]
fn a_hub_is_some_16_kilobytes_behind_one_pointer() {
    assert_eq!(size_of::<Fields>(), 16_384);
    assert_eq!(size_of::<copperyarn::Hub>(), size_of::<usize>());
}
