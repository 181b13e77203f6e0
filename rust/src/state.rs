//! What the hub keeps of a code.

/// A button's record.
#[derive(Clone, Copy, Debug, PartialEq)]
pub struct ButtonData {
    pub(crate) pressed: bool,
    pub(crate) repeating: bool,
    pub(crate) value: f32,
    pub(crate) counter: u64,
    pub(crate) timestamp: u64,
    pub(crate) since: u64,
}

impl ButtonData {
    /// Whether the button is pressed.
    pub fn is_pressed(&self) -> bool {
        self.pressed
    }

    /// Its value, 0.0 to 1.0.
    pub fn value(&self) -> f32 {
        self.value
    }

    /// Whether it has repeated since it was pressed.
    pub fn is_repeating(&self) -> bool {
        self.repeating
    }

    /// The hub's counter when it last changed.
    pub fn counter(&self) -> u64 {
        self.counter
    }

    /// When it last changed, in microseconds. A repeat that is given back is such a change, and so is a new value.
    pub fn timestamp(&self) -> u64 {
        self.timestamp
    }

    /// When it last went from not pressed to pressed, in microseconds: the time of the event that did it. gilrs has no such field.
    ///
    /// While the button is pressed, `now - since` is how long it has been held: repeats, further presses and new values leave it. Release leaves it too. Behind a
    /// release `timestamp - since` is the length of the hold that ended, as long as the record was last written by that Released, or by the Changed that comes
    /// behind it with its time; any later event of the button moves the timestamp. The times are the caller's, so where they run backwards `since` may be later.
    ///
    /// 0 says that the button has not gone from not pressed to pressed since its record began, which was with Released or Changed; a record that begins with
    /// Repeated is pressed from the start, and has that event's time. A press at time 0 reads 0 as well: [`is_pressed`](ButtonData::is_pressed) tells whether
    /// one stands. Connected takes the whole record away.
    ///
    /// ```
    /// use copperyarn::{Button, Code, Hub, RawRecord, Settings, Sheet};
    ///
    /// let south = Code::key(0x130);
    /// let mut hub = Hub::new(Settings::default())?;
    /// let pad = hub.register(&Sheet::builder().button(south, Button::South).build())?;
    /// assert!(hub.feed(&[RawRecord::pressed(pad, south, 200_000)]).all(|event| event.is_ok()));
    /// let now = 1_000_000;
    /// while let Some(event) = hub.repeat(500_000, 30_000, now)? {
    ///     hub.update(&event)?;
    /// }
    /// let held = hub.button_data(pad, Button::South)?.expect("a record");
    /// assert!(held.is_pressed() && held.is_repeating());
    /// assert_eq!((held.timestamp(), now - held.since()), (1_000_000, 800_000)); // the last repeat was just now
    ///
    /// assert!(hub.feed(&[RawRecord::released(pad, south, 1_200_000)]).all(|event| event.is_ok()));
    /// let let_go = hub.button_data(pad, Button::South)?.expect("a record");
    /// assert!(!let_go.is_pressed());
    /// assert_eq!(let_go.timestamp() - let_go.since(), 1_000_000);
    /// # Ok::<(), copperyarn::Refusal>(())
    /// ```
    pub fn since(&self) -> u64 {
        self.since
    }
}

/// What is down on a pad, as [`Hub::down`](crate::Hub::down) tells it.
#[derive(Clone, Copy, Debug, Eq, Hash, PartialEq)]
pub struct Down {
    /// How many of its buttons' records are pressed, 52 at most: of the sheet's elements, and of the four directions where it does not list them.
    pub count: u8,
    /// Whether an axis element's record is among them: a trigger's, or that of any other axis that an event pressed.
    pub axis: bool,
}

/// An axis's record.
#[derive(Clone, Copy, Debug, PartialEq)]
pub struct AxisData {
    pub(crate) value: f32,
    pub(crate) counter: u64,
    pub(crate) timestamp: u64,
}

impl AxisData {
    /// Its value, -1.0 to 1.0.
    pub fn value(&self) -> f32 {
        self.value
    }

    /// The hub's counter when it last changed.
    pub fn counter(&self) -> u64 {
        self.counter
    }

    /// When it last changed, in microseconds.
    pub fn timestamp(&self) -> u64 {
        self.timestamp
    }
}
