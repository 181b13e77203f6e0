//! The event loop: one event at a time, so that the state read in between is that of the events handed out so far.

use crate::event::Event;
use crate::hub::{Hub, Reason};
use crate::record::RawRecord;
use crate::refusal::Refusal;
use crate::tilt::Tilt;
use std::error::Error;
use std::{fmt, slice};

/// A record that was refused, and why. It changed nothing.
#[derive(Clone, Copy, Debug, Eq, Hash, PartialEq)]
pub struct Refused {
    pub record: RawRecord,
    pub refusal: Refusal,
}

impl fmt::Display for Refused {
    fn fmt(&self, f: &mut fmt::Formatter<'_>) -> fmt::Result {
        write!(f, "{}: {:?}", self.refusal, self.record)
    }
}

impl Error for Refused {}

impl From<Refused> for Refusal {
    fn from(refused: Refused) -> Refusal {
        refused.refusal
    }
}

impl Hub {
    /// The next event, as gilrs's `next_event`: of those that wait or, where none does, of the next records. `None` where nothing waits and no record is left.
    ///
    /// The records are the caller's: a slice's `iter().copied()`, a channel's `try_iter()`, a device that is read. One is taken only where nothing waits, so
    /// between two events the hub's state is that of the events handed out so far, and nothing is lost by stopping. A record that is refused is an error, has
    /// changed nothing and is behind us: the next call goes on with the record after it. Records: 8, 6, 9, 10, 11, 12.
    ///
    /// ```
    /// use copperyarn::{Button, Code, EventType, Hub, RawRecord, Settings, Sheet};
    ///
    /// let mut hub = Hub::new(Settings::default())?;
    /// let pad = hub.register(&Sheet::builder().button(Code::key(0x130), Button::South).build())?;
    /// let mut records = [RawRecord::pressed(pad, Code::key(0x130), 5), RawRecord::released(pad, Code::key(0x130), 9)].into_iter();
    /// while let Some(event) = hub.next_event(&mut records)? {
    ///     if let EventType::ButtonPressed(button, _) = event.event {
    ///         assert!(hub.is_pressed(event.id, button)?);
    ///     }
    /// }
    /// assert!(!hub.is_pressed(pad, Button::South)?);
    /// # Ok::<(), copperyarn::Refusal>(())
    /// ```
    pub fn next_event(&mut self, records: &mut impl Iterator<Item = RawRecord>) -> Result<Option<Event>, Refused> {
        self.next_noting(records, &mut None)
    }

    /// The same, and notes what the axis events on the way met.
    fn next_noting(
        &mut self, records: &mut impl Iterator<Item = RawRecord>, tilt: &mut Option<Tilt>,
    ) -> Result<Option<Event>, Refused> {
        loop {
            if self.waiting() > 0 {
                match self.pump_one(&[], tilt) {
                    (_, Some(event)) => return Ok(Some(event)),
                    _ => continue,
                }
            }
            let Some(record) = records.next() else { return Ok(None) };
            match self.pump_one(&record.to_bytes(), tilt) {
                (_, Some(event)) => return Ok(Some(event)),
                (Reason::Refused(refusal), None) => return Err(Refused { record, refusal }),
                _ => {}
            }
        }
    }

    /// Pumps up to the first event that is handed out.
    fn pump_one(&mut self, batch: &[u8], tilt: &mut Option<Tilt>) -> (Reason, Option<Event>) {
        let mut out = [0; Event::SIZE];
        let report = self.pump(batch, 0, &mut out, u16::MAX);
        *tilt = report.tilt.or(*tilt);
        let event = report.written(&out).next();
        (report.reason, event)
    }

    /// Feeds records, any number of them: an iterator of the events that they give, those that wait first. A refused record is an `Err` between the events; the
    /// feed goes on behind it.
    ///
    /// Events are made as they are asked for: see [`Feed`] for the state in between and for what stays when it is dropped early.
    ///
    /// ```
    /// use copperyarn::{Button, Code, Hub, PadId, RawRecord, Refusal, Settings, Sheet};
    ///
    /// let mut hub = Hub::new(Settings::default())?;
    /// let pad = hub.register(&Sheet::builder().button(Code::key(0x130), Button::South).build())?;
    /// let records = [RawRecord::connected(PadId(3), 1), RawRecord::pressed(pad, Code::key(0x130), 5)];
    /// for event in hub.feed(&records) {
    ///     match event {
    ///         Ok(event) => println!("{event:?}"),
    ///         Err(refused) => assert_eq!(refused.refusal, Refusal::NoPad),
    ///     }
    /// }
    /// # assert!(hub.is_pressed(pad, Button::South)?);
    /// # Ok::<(), Refusal>(())
    /// ```
    pub fn feed<'r>(&mut self, records: &'r [RawRecord]) -> Feed<'_, 'r> {
        Feed { hub: self, records: records.iter(), tilt: None }
    }
}

/// The events of a [`feed`](Hub::feed).
///
/// It holds the hub; [`hub`](Feed::hub) lends it for queries between two events, and they read what the events so far left:
///
/// ```
/// # use copperyarn::{Button, Code, EventType, Hub, RawRecord, Settings, Sheet};
/// # let mut hub = Hub::new(Settings::default())?;
/// # let pad = hub.register(&Sheet::builder().button(Code::key(0x130), Button::South).build())?;
/// # let records = [RawRecord::pressed(pad, Code::key(0x130), 5), RawRecord::released(pad, Code::key(0x130), 9)];
/// let mut feed = hub.feed(&records);
/// let event = feed.next().unwrap()?;
/// assert_eq!(event.event, EventType::ButtonPressed(Button::South, Code::key(0x130)));
/// assert!(feed.hub().is_pressed(pad, Button::South)?);
/// assert_eq!(feed.rest(), &records[1..]);
/// # Ok::<(), copperyarn::Refusal>(())
/// ```
///
/// Dropped early it loses nothing: the events that wait stay in the hub, and come first with the next feed; the records from [`rest`](Feed::rest) on were not
/// looked at, and are the caller's to feed again or to leave.
#[derive(Debug)]
#[must_use = "a feed makes its events as they are asked for"]
pub struct Feed<'h, 'r> {
    hub: &'h mut Hub,
    records: slice::Iter<'r, RawRecord>,
    tilt: Option<Tilt>,
}

impl<'r> Feed<'_, 'r> {
    /// The hub behind the events so far.
    pub fn hub(&self) -> &Hub {
        self.hub
    }

    /// Which of three the deadzone calculation was for the last axis event so far that met a threshold, as in [`PumpReport::tilt`](crate::PumpReport::tilt);
    /// none where none of this feed's did. What was dropped on the way to the event that [`next`](Iterator::next) gave counts too.
    ///
    /// ```
    /// # use copperyarn::{Axis, Code, Hub, RawRecord, Settings, Sheet, Tilt};
    /// # let stick = Code::abs(0x00);
    /// # let mut hub = Hub::new(Settings::default())?;
    /// # let pad = hub.register(&Sheet::builder().axis_with_deadzone(stick, Axis::LeftStickX, 0..=256, 64).build())?;
    /// let records = [RawRecord::axis(pad, stick, 256, 5), RawRecord::axis(pad, stick, 160, 9)];
    /// let mut feed = hub.feed(&records);
    /// for event in feed.by_ref() {
    ///     println!("{:?}", event?);
    /// }
    /// assert_eq!(feed.tilt(), Some(Tilt::Inside));
    /// # Ok::<(), copperyarn::Refusal>(())
    /// ```
    pub fn tilt(&self) -> Option<Tilt> {
        self.tilt
    }

    /// The records that were not taken yet.
    pub fn rest(&self) -> &'r [RawRecord] {
        self.records.as_slice()
    }
}

impl Iterator for Feed<'_, '_> {
    type Item = Result<Event, Refused>;

    fn next(&mut self) -> Option<Result<Event, Refused>> {
        self.hub.next_noting(&mut self.records.by_ref().copied(), &mut self.tilt).transpose()
    }
}
