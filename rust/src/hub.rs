//! The hub: setting it up, and the calls that change it. The queries stand in `queries`, the event loop in `feed`.

use crate::event::Event;
use crate::layout::{Fields, Pad};
use crate::names::{Name, PadId};
use crate::refusal::{judged, Refusal};
use crate::sheet::Sheet;
use crate::tilt::Tilt;
use std::fmt;

/// What a hub is made with. The defaults are those of gilrs's builder.
#[derive(Clone, Copy, Debug, PartialEq)]
pub struct Settings {
    /// A trigger that reaches this value is pressed; 0.75.
    pub pressed: f32,
    /// A pressed trigger that falls to this value is released; 0.65.
    pub released: f32,
    /// Whether the pads' Y axes point down, so that their values are negated and up is +1.0; yes, as evdev's do, and as gilrs has it on Linux.
    pub reversed_y: bool,
    /// Whether events pass the filters: hats to directions, jitter, deadzone; yes.
    pub filters: bool,
    /// Whether events that are handed out update the state; yes. Without it the caller gives them to [`Hub::update`].
    pub updates: bool,
}

impl Default for Settings {
    fn default() -> Settings {
        Settings { pressed: 0.75, released: 0.65, reversed_y: true, filters: true, updates: true }
    }
}

/// Up to four pads: takes raw records, hands out events, and keeps the state that they leave.
///
/// It is some 16 kilobytes behind one pointer, allocated by `new` and by `clone`. Of the other calls `rename` alone allocates, for as long as it runs. A hub may
/// be sent to another thread; a clone goes its own way.
#[derive(Clone, PartialEq)]
pub struct Hub {
    fields: Box<Fields>,
}

const _: () = {
    const fn is_send<T: Send>() {}
    is_send::<Hub>();
};

impl fmt::Debug for Hub {
    fn fmt(&self, f: &mut fmt::Formatter<'_>) -> fmt::Result {
        let head = &self.fields.head;
        f.debug_struct("Hub")
            .field("pads", &head.pads)
            .field("counter", &head.counter)
            .field("waiting", &head.waiting)
            .finish_non_exhaustive()
    }
}

/// Why a pump stopped.
#[derive(Clone, Copy, Debug, Eq, Hash, PartialEq)]
pub enum Reason {
    /// Nothing waits and the batch is used up.
    Drained,
    /// The out buffer has no room for one more event.
    Full,
    /// The allowance is spent.
    Paused,
    /// The record at the place is refused, or the call is.
    Refused(Refusal),
}

/// What a pump did.
#[must_use]
#[derive(Clone, Copy, Debug, Eq, Hash, PartialEq)]
pub struct PumpReport {
    /// Why it stopped.
    pub reason: Reason,
    /// The offset in the batch, in bytes, that it came to: the place for the next call.
    pub place: usize,
    /// How many events it wrote, 22 bytes each, from the out buffer's first byte on.
    pub events: usize,
    /// How many steps it made: each takes an event that waits or a record.
    pub steps: usize,
    /// Which of three the deadzone calculation was for the last axis event among them that met a threshold. Nothing is kept from call to call.
    ///
    /// An axis event meets one with [`filters`](Settings::filters) on, where its code is an axis element's, whether the deadzone then hands it out or drops it.
    /// A hat that is turned into directions is no axis event any more, a trigger's value is a button's, and what jitter drops gets no calculation: a stick that
    /// is held still meets none. Of a call that was stopped by a refused record it is what came before that; a call refused as a whole has none.
    pub tilt: Option<Tilt>,
}

impl PumpReport {
    /// Reads the events that the pump wrote into `out`.
    pub fn written<'a>(&self, out: &'a [u8]) -> impl Iterator<Item = Event> + 'a {
        // the hub's own bytes are well made: they are read and not judged
        out.chunks_exact(Event::SIZE).take(self.events).filter_map(Event::read)
    }
}

/// Setting a desk up.
impl Hub {
    /// A fresh hub without pads. Refuses [`Thresholds`](Refusal::Thresholds).
    pub fn new(settings: Settings) -> Result<Hub, Refusal> {
        let mut fields = Box::new(Fields::BLANK);
        judged(fields.begin(settings))?;
        Ok(Hub { fields })
    }

    /// Adds a pad, connected, as its sheet says, which maps no hat direction or all four. There is no event of it. Refuses 2, 3, 4, 29, 5.
    pub fn register(&mut self, sheet: &Sheet) -> Result<PadId, Refusal> {
        registered(self.fields.register(sheet.as_bytes()))
    }

    /// Adds a pad by a sheet of the archive, whose hats may also map one to three directions. Such a pad keeps them as they are, and [is old](Hub::is_old);
    /// any other is as [`register`](Hub::register) makes it. Refuses 2, 3, 4, 5.
    ///
    /// ```
    /// use copperyarn::{Axis, Code, Hub, Refusal, Settings, Sheet};
    ///
    /// let mut hub = Hub::new(Settings::default())?;
    /// let sheet = Sheet::builder().axis(Code::abs(0x10), Axis::DPadX, -1..=1).hats(12).build();
    /// assert_eq!(hub.register(&sheet), Err(Refusal::PartialHats));
    /// let pad = hub.register_archived(&sheet)?;
    /// assert!(hub.is_old(pad)?);
    /// # Ok::<(), copperyarn::Refusal>(())
    /// ```
    pub fn register_archived(&mut self, sheet: &Sheet) -> Result<PadId, Refusal> {
        registered(self.fields.register_archived(sheet.as_bytes()))
    }

    /// New names for a pad's elements, one for each, by rising code; gilrs's `set_mapping`. They hold until the pad's next Connected, and until then the pad maps
    /// no hat direction. Refuses 6, 7, 3, 4, 5.
    pub fn rename(&mut self, pad: PadId, names: &[Name]) -> Result<(), Refusal> {
        let list: Vec<u8> = names.iter().map(|name| name.0).collect();
        judged(self.fields.rename(pad.0, &list))
    }
}

/// The library's answer to either registration.
fn registered(answer: Pad) -> Result<PadId, Refusal> {
    judged(answer.refusal)?;
    Ok(PadId(answer.pad))
}

/// Events.
impl Hub {
    /// The bare pump: takes the events that wait and then the records of `batch` from `place` on, 21 bytes each, and writes what is handed out into `out`, 22
    /// bytes each. It stops where nothing is left, where `out` is full, behind `allowance` steps, or at a record that is refused; what came before stands.
    /// Batch and out buffer may have 16,384 bytes. Refuses 14 and 8 for the whole call, and of a record 8, 6, 9, 10, 11, 12.
    ///
    /// The hub's state is that behind the last event written. [`feed`](Hub::feed) and [`next_event`](Hub::next_event) go event by event.
    ///
    /// ```
    /// use copperyarn::{Button, Code, Event, Hub, RawRecord, Reason, Settings, Sheet};
    ///
    /// let mut hub = Hub::new(Settings::default())?;
    /// let pad = hub.register(&Sheet::builder().button(Code::key(0x130), Button::South).build())?;
    /// let batch = [RawRecord::pressed(pad, Code::key(0x130), 5).to_bytes(), RawRecord::released(pad, Code::key(0x130), 9).to_bytes()].concat();
    /// let mut out = [0; 16 * Event::SIZE];
    /// let report = hub.pump(&batch, 0, &mut out, u16::MAX);
    /// assert_eq!((report.reason, report.place, report.events, report.steps), (Reason::Drained, 42, 4, 4));
    /// for event in report.written(&out) {
    ///     println!("{event:?}");
    /// }
    /// # assert_eq!(report.written(&out).count(), 4);
    /// # Ok::<(), copperyarn::Refusal>(())
    /// ```
    pub fn pump(&mut self, batch: &[u8], place: usize, out: &mut [u8], allowance: u16) -> PumpReport {
        let report = self.fields.pump(batch, place, out, allowance);
        let reason = match (judged(report.refusal), report.reason) {
            (Err(refusal), _) => Reason::Refused(refusal),
            (Ok(()), 1) => Reason::Drained,
            (Ok(()), 2) => Reason::Full,
            (Ok(()), _) => Reason::Paused,
        };
        let tilt = Tilt::of(report.tilt);
        PumpReport { reason, place: report.place, events: report.events, steps: report.steps, tilt }
    }

    /// Gives an event to the state, as the pump does with those that it hands out. Refuses 8, 6, 9, 11, 12.
    pub fn update(&mut self, event: &Event) -> Result<(), Refusal> {
        self.update_bytes(&event.to_bytes())
    }

    /// The same by any bytes.
    pub fn update_bytes(&mut self, event: &[u8]) -> Result<(), Refusal> {
        judged(self.fields.update(event))
    }

    /// Lets an event wait, behind those that do: the next pump takes it through the filters and hands it out. Refuses 8, 6, 9, 11, 12, 13.
    pub fn insert_event(&mut self, event: &Event) -> Result<(), Refusal> {
        self.insert_event_bytes(&event.to_bytes())
    }

    /// The same by any bytes.
    pub fn insert_event_bytes(&mut self, event: &[u8]) -> Result<(), Refusal> {
        judged(self.fields.insert_event(event))
    }

    /// How many events wait, 64 at most.
    pub fn waiting(&self) -> usize {
        usize::from(self.fields.waiting())
    }

    /// The button that is due to repeat at `now`, if one is: held `after` microseconds since it was pressed, or `every` since it last repeated. Of the connected
    /// pads by number and their codes rising it is the first. The hub stays as it is: give the event to [`update`](Hub::update), and ask again until none is
    /// due. Refuses 15, 12.
    ///
    /// ```
    /// use copperyarn::{Button, Code, EventType, Hub, RawRecord, Settings, Sheet};
    ///
    /// let mut hub = Hub::new(Settings::default())?;
    /// let pad = hub.register(&Sheet::builder().button(Code::key(0x130), Button::South).build())?;
    /// assert!(hub.feed(&[RawRecord::pressed(pad, Code::key(0x130), 0)]).all(|event| event.is_ok()));
    /// let (after, every, now) = (500_000, 30_000, 1_000_000);
    /// let mut repeats = 0;
    /// while let Some(event) = hub.repeat(after, every, now)? {
    ///     assert_eq!(event.event, EventType::ButtonRepeated(Button::South, Code::key(0x130)));
    ///     hub.update(&event)?;
    ///     repeats += 1;
    /// }
    /// assert_eq!(repeats, 17);
    /// # Ok::<(), copperyarn::Refusal>(())
    /// ```
    pub fn repeat(&self, after: u64, every: u64, now: u64) -> Result<Option<Event>, Refusal> {
        let mut bytes = [0; Event::SIZE];
        let due = self.fields.repeat(after, every, now, &mut bytes);
        judged(due.refusal)?;
        due.due.then(|| Event::from_bytes(&bytes)).transpose()
    }
}

/// The counter, which is kept with every change of the state.
impl Hub {
    /// Counts one up; behind 2^62-1 comes 0.
    pub fn inc(&mut self) {
        self.fields.inc();
    }

    /// The counter.
    pub fn counter(&self) -> u64 {
        self.fields.counter()
    }

    /// Sets the counter to 0.
    pub fn reset_counter(&mut self) {
        self.fields.reset_counter();
    }
}

impl Hub {
    /// The hub as it lies in memory, for tests that look at everything.
    #[doc(hidden)]
    pub fn fields(&self) -> &Fields {
        &self.fields
    }
}
