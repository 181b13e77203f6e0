//! Behind every call of the sample a pad is old exactly where its present hats are partial.

use crate::{player, scenario, stored};
use copperyarn::PadId;

#[test]
fn a_pad_is_old_where_its_hats_are_partial_behind_every_call() {
    let stream = stored("scenarios.bin");
    let (mut old, mut cleared) = (0, 0);
    let mut hub = None;
    for operation in scenario::read(&stream).expect("a scenario file") {
        player::answer(&mut hub, &operation);
        let Some(hub) = &hub else { continue };
        let head = &hub.fields().head;
        for pad in 0..usize::from(head.pads) {
            let present = if head.renamed[pad] { head.newhats[pad] } else { head.hats[pad] };
            let partial = |hats: u8| (1..=14).contains(&hats);
            assert_eq!(hub.is_old(PadId(pad as u8)), Ok(partial(present)), "behind {operation:?}");
            old += usize::from(partial(present));
            cleared += usize::from(partial(head.hats[pad]) && !partial(present));
        }
    }
    assert!(old > 5_000 && cleared > 200, "{old} times a pad was old, {cleared} times its mark was cleared");
}
