//! The queries, by gilrs's names. Each refuses 6 where the pad is not registered.

use crate::hub::Hub;
use crate::layout;
use crate::names::{Axis, AxisOrBtn, Button, Code, Name, PadId};
use crate::refusal::{judged, Refusal};
use crate::state::{AxisData, ButtonData, Down};

/// Pads.
impl Hub {
    /// Whether a pad is connected: from its registration, or its last Connected, to its next Disconnected.
    pub fn is_connected(&self, pad: PadId) -> Result<bool, Refusal> {
        truth(self.fields().is_connected(pad.0))
    }

    /// Whether a pad is old: it was [registered from the archive](Hub::register_archived) with hats that map one to three directions, and has them. A rename
    /// clears that, and the pad's next Connected brings it back; Disconnected leaves it. gilrs has no such call.
    ///
    /// ```
    /// use copperyarn::{Button, Code, Hub, RawRecord, Settings, Sheet};
    ///
    /// let mut hub = Hub::new(Settings::default())?;
    /// let pad = hub.register_archived(&Sheet::builder().button(Code::key(0x130), Button::South).hats(3).build())?;
    /// assert!(hub.is_old(pad)?);
    /// hub.rename(pad, &[Button::East.into()])?;
    /// assert!(!hub.is_old(pad)?);
    /// assert!(hub.feed(&[RawRecord::connected(pad, 1_000)]).all(|event| event.is_ok()));
    /// assert!(hub.is_old(pad)?);
    /// # Ok::<(), copperyarn::Refusal>(())
    /// ```
    pub fn is_old(&self, pad: PadId) -> Result<bool, Refusal> {
        truth(self.fields().is_old(pad.0))
    }

    /// The connected pads.
    pub fn connected_pads(&self) -> impl Iterator<Item = PadId> + '_ {
        (0..4).map(PadId).filter(|pad| self.is_connected(*pad) == Ok(true))
    }
}

/// What is down right now. gilrs has no such calls. The hub keeps both as events move them and counts nothing here, so a panel may ask every frame.
impl Hub {
    /// How many of a pad's buttons are pressed, and whether an axis element reads pressed.
    ///
    /// It is what counting the pressed ones of [`buttons`](Hub::buttons) gives, behind every call and between any two steps of a pump. So a hat's direction
    /// counts, though the sheet may not list it; a further press of a pressed button does not, and a repeat only where the button had no record. Values play no
    /// part. Connected leaves nothing down; Disconnected, like a rename, leaves what is.
    ///
    /// ```
    /// use copperyarn::{Axis, Button, Code, Down, Hub, RawRecord, Settings, Sheet};
    ///
    /// let (south, trigger, hat) = (Code::key(0x130), Code::abs(0x02), Code::abs(0x10));
    /// let sheet = Sheet::builder()
    ///     .button(south, Button::South)
    ///     .axis(trigger, Button::LeftTrigger2, 0..=255)
    ///     .axis(hat, Axis::DPadX, -1..=1);
    /// let mut hub = Hub::new(Settings::default())?;
    /// let pad = hub.register(&sheet.build())?;
    /// assert_eq!(hub.down(pad)?, Down { count: 0, axis: false });
    ///
    /// let records = [RawRecord::pressed(pad, south, 1_000), RawRecord::axis(pad, hat, -1, 2_000)];
    /// assert!(hub.feed(&records).all(|event| event.is_ok()));
    /// assert_eq!(hub.down(pad)?, Down { count: 2, axis: false }); // South, and the hat's left
    ///
    /// let records = [RawRecord::axis(pad, trigger, 255, 3_000), RawRecord::disconnected(pad, 4_000)];
    /// assert!(hub.feed(&records).all(|event| event.is_ok()));
    /// assert_eq!(hub.down(pad)?, Down { count: 3, axis: true });
    ///
    /// assert!(hub.feed(&[RawRecord::connected(pad, 5_000)]).all(|event| event.is_ok()));
    /// assert_eq!(hub.down(pad)?, Down { count: 0, axis: false });
    /// # Ok::<(), copperyarn::Refusal>(())
    /// ```
    pub fn down(&self, pad: PadId) -> Result<Down, Refusal> {
        let layout::Down { refusal, count, axis } = self.fields().down(pad.0);
        judged(refusal)?;
        Ok(Down { count, axis })
    }

    /// The lowest code of a pad that reads pressed; none exactly where [`down`](Hub::down) counts none.
    ///
    /// ```
    /// use copperyarn::{Button, Code, Event, EventType, Hub, Settings, Sheet};
    ///
    /// let (south, east) = (Code::key(0x130), Code::key(0x131));
    /// let mut hub = Hub::new(Settings::default())?;
    /// let pad = hub.register(&Sheet::builder().button(south, Button::South).button(east, Button::East).build())?;
    /// assert_eq!(hub.lowest_pressed(pad)?, None);
    /// hub.update(&Event::new(pad, EventType::ButtonPressed(Button::DPadUp, Code::DPAD_UP), 1_000))?;
    /// assert_eq!(hub.lowest_pressed(pad)?, Some(Code::DPAD_UP));
    /// hub.update(&Event::new(pad, EventType::ButtonPressed(Button::East, east), 2_000))?;
    /// assert_eq!(hub.lowest_pressed(pad)?, Some(east));
    /// # Ok::<(), copperyarn::Refusal>(())
    /// ```
    pub fn lowest_pressed(&self, pad: PadId) -> Result<Option<Code>, Refusal> {
        Ok(known_number(self.fields().lowest_pressed(pad.0))?.map(Code))
    }
}

/// The state, by buttons and axes. These refuse 16 for Unknown.
impl Hub {
    /// Whether a button is pressed. Where no element has the name it is that of [`Button::to_nec`].
    pub fn is_pressed(&self, pad: PadId, button: Button) -> Result<bool, Refusal> {
        self.is_pressed_by_name(pad, button.into())
    }

    /// An axis's value, 0.0 where there is none.
    pub fn value(&self, pad: PadId, axis: Axis) -> Result<f32, Refusal> {
        self.value_by_name(pad, axis.into())
    }

    /// A button's record, none where nothing happened to it yet.
    pub fn button_data(&self, pad: PadId, button: Button) -> Result<Option<ButtonData>, Refusal> {
        self.button_data_by_name(pad, button.into())
    }

    /// An axis's record, none where nothing happened to it yet.
    pub fn axis_data(&self, pad: PadId, axis: Axis) -> Result<Option<AxisData>, Refusal> {
        self.axis_data_by_name(pad, axis.into())
    }

    /// The code of the element that has a button's name at present.
    pub fn button_code(&self, pad: PadId, button: Button) -> Result<Option<Code>, Refusal> {
        self.code_by_name(pad, button.into())
    }

    /// The code of the element that has an axis's name at present.
    pub fn axis_code(&self, pad: PadId, axis: Axis) -> Result<Option<Code>, Refusal> {
        self.code_by_name(pad, axis.into())
    }
}

/// The same by a name's number, for callers that hold names as bytes. These refuse 16 for a byte that is no name of the sort asked.
impl Hub {
    /// [`is_pressed`](Hub::is_pressed) by a number.
    pub fn is_pressed_by_name(&self, pad: PadId, name: Name) -> Result<bool, Refusal> {
        truth(self.fields().is_pressed(pad.0, name.0))
    }

    /// [`value`](Hub::value) by a number.
    pub fn value_by_name(&self, pad: PadId, name: Name) -> Result<f32, Refusal> {
        Ok(known_value(self.fields().value(pad.0, name.0))?.unwrap_or(0.0))
    }

    /// [`button_data`](Hub::button_data) by a number.
    pub fn button_data_by_name(&self, pad: PadId, name: Name) -> Result<Option<ButtonData>, Refusal> {
        button(self.fields().button_data(pad.0, name.0))
    }

    /// [`axis_data`](Hub::axis_data) by a number.
    pub fn axis_data_by_name(&self, pad: PadId, name: Name) -> Result<Option<AxisData>, Refusal> {
        axis(self.fields().axis_data(pad.0, name.0))
    }

    /// [`button_code`](Hub::button_code) or [`axis_code`](Hub::axis_code) by a number.
    pub fn code_by_name(&self, pad: PadId, name: Name) -> Result<Option<Code>, Refusal> {
        Ok(known_number(self.fields().code_of_name(pad.0, name.0))?.map(Code))
    }
}

/// The state by codes, as of gilrs's `GamepadState`: the shortest way. A code that is not known reads false, 0.0 or none.
impl Hub {
    /// Whether a button is pressed.
    pub fn is_pressed_by_code(&self, pad: PadId, code: Code) -> Result<bool, Refusal> {
        truth(self.fields().is_pressed_by_code(pad.0, code.0))
    }

    /// The value of an axis, else of a button.
    pub fn value_by_code(&self, pad: PadId, code: Code) -> Result<f32, Refusal> {
        Ok(known_value(self.fields().value_by_code(pad.0, code.0))?.unwrap_or(0.0))
    }

    /// A button's record.
    pub fn button_data_by_code(&self, pad: PadId, code: Code) -> Result<Option<ButtonData>, Refusal> {
        button(self.fields().button_data_by_code(pad.0, code.0))
    }

    /// An axis's record.
    pub fn axis_data_by_code(&self, pad: PadId, code: Code) -> Result<Option<AxisData>, Refusal> {
        axis(self.fields().axis_data_by_code(pad.0, code.0))
    }

    /// What an element is called at present.
    pub fn axis_or_btn_name(&self, pad: PadId, code: Code) -> Result<Option<AxisOrBtn>, Refusal> {
        let number = known_number(self.fields().axis_or_btn_name(pad.0, code.0))?;
        Ok(number.and_then(|number| Name(u8::try_from(number).ok()?).meaning()))
    }

    /// The deadzone's threshold of an axis element, in its scaled values.
    pub fn deadzone(&self, pad: PadId, code: Code) -> Result<Option<f32>, Refusal> {
        known_value(self.fields().deadzone(pad.0, code.0))
    }

    /// The buttons that have a record, by rising code.
    pub fn buttons(&self, pad: PadId) -> Result<impl Iterator<Item = (Code, ButtonData)> + '_, Refusal> {
        let codes = self.codes_where(pad, &self.fields().hasbutton)?;
        Ok(codes.filter_map(move |code| Some((code, self.button_data_by_code(pad, code).ok()??))))
    }

    /// The axes that have a record, by rising code.
    pub fn axes(&self, pad: PadId) -> Result<impl Iterator<Item = (Code, AxisData)> + '_, Refusal> {
        let codes = self.codes_where(pad, &self.fields().hasaxis)?;
        Ok(codes.filter_map(move |code| Some((code, self.axis_data_by_code(pad, code).ok()??))))
    }

    /// The codes of a pad's 52 places that are marked.
    fn codes_where<'a>(
        &'a self, pad: PadId, marked: &'a layout::Bools,
    ) -> Result<impl Iterator<Item = Code> + 'a, Refusal> {
        self.is_connected(pad)?;
        let places = 52 * usize::from(pad)..52 * (usize::from(pad) + 1);
        Ok(places.filter(|place| marked[*place]).map(|place| Code(self.fields().codes[place])))
    }
}

// ---- the library's answers as Rust's

fn truth(answer: layout::Truth) -> Result<bool, Refusal> {
    judged(answer.refusal)?;
    Ok(answer.is)
}

fn known_value(answer: layout::Value) -> Result<Option<f32>, Refusal> {
    judged(answer.refusal)?;
    Ok(answer.known.then_some(answer.value))
}

fn known_number(answer: layout::Number) -> Result<Option<u32>, Refusal> {
    judged(answer.refusal)?;
    Ok(answer.known.then_some(answer.number))
}

fn button(answer: layout::Button) -> Result<Option<ButtonData>, Refusal> {
    let layout::Button { refusal, known, pressed, repeating, value, stamp, counter, since } = answer;
    judged(refusal)?;
    Ok(known.then_some(ButtonData { pressed, repeating, value, counter, timestamp: stamp, since }))
}

fn axis(answer: layout::Axis) -> Result<Option<AxisData>, Refusal> {
    let layout::Axis { refusal, known, value, stamp, counter } = answer;
    judged(refusal)?;
    Ok(known.then_some(AxisData { value, counter, timestamp: stamp }))
}
