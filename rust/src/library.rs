//! The library's exports, and the hub's fields lent to them. The one file with `unsafe`. Each export is proved, in `crates/copperyarn`, to ask nothing of its
//! caller, to end, and to write nothing but what it is lent and answers; so those that are lent whole fields are `safe` to call. A slice crosses as its pointer
//! and its size, two parameters, which must belong together: the calls that lend one say so. What is left to trust is that names, types and layout are the same
//! here and there.

use crate::hub::Settings;
use crate::layout::*;

// SAFETY: names, types and their order are those of `crates/copperyarn/src`; what `safe` says is the head of this file.
unsafe extern "C" {
    safe fn copperyarn_lent_new(
        pressed: f32, released: f32, reversed: bool, filters: bool, updates: bool, codes: &mut Codes,
        kinds: &mut Bytes, names: &mut Bytes, renames: &mut Bytes, hasbutton: &mut Bools, hasaxis: &mut Bools,
        values: &mut Values, times: &mut Times, marks: &mut Marks, queuebytes: &mut QueueBytes,
        queuecodes: &mut QueueCodes,
    ) -> Done;
    fn copperyarn_lent_register(
        head: Head, codes: &mut Codes, kinds: &mut Bytes, names: &mut Bytes, hasbutton: &mut Bools,
        hasaxis: &mut Bools, values: &mut Values, marks: &mut Marks, sheet: *const u8, sheet_size: usize,
    ) -> Registered;
    fn copperyarn_lent_register_archived(
        head: Head, codes: &mut Codes, kinds: &mut Bytes, names: &mut Bytes, hasbutton: &mut Bools,
        hasaxis: &mut Bools, values: &mut Values, marks: &mut Marks, sheet: *const u8, sheet_size: usize,
    ) -> Registered;
    fn copperyarn_lent_rename(
        head: Head, codes: &Codes, kinds: &Bytes, renames: &mut Bytes, pad: u8, list: *const u8, list_size: usize,
    ) -> Done;
    fn copperyarn_lent_pump(
        head: Head, codes: &Codes, kinds: &Bytes, names: &Bytes, renames: &Bytes, hasbutton: &mut Bools,
        hasaxis: &mut Bools, values: &mut Values, times: &mut Times, marks: &mut Marks, queuebytes: &mut QueueBytes,
        queuecodes: &mut QueueCodes, batch: *const u8, batch_size: usize, place: usize, out: *mut u8, out_size: usize,
        allowance: u16,
    ) -> Pumped;
    fn copperyarn_lent_update(
        head: Head, codes: &Codes, kinds: &Bytes, hasbutton: &mut Bools, hasaxis: &mut Bools, values: &mut Values,
        times: &mut Times, marks: &mut Marks, event: *const u8, event_size: usize,
    ) -> Done;
    fn copperyarn_lent_insert_event(
        head: Head, codes: &Codes, values: &mut Values, times: &mut Times, queuebytes: &mut QueueBytes,
        queuecodes: &mut QueueCodes, event: *const u8, event_size: usize,
    ) -> Done;
    safe fn copperyarn_lent_repeat(
        head: Head, codes: &Codes, names: &Bytes, renames: &Bytes, hasbutton: &Bools, values: &Values, times: &Times,
        marks: &Marks, after: u64, every: u64, clock: u64, event: &mut [u8; 22],
    ) -> Due;
    safe fn copperyarn_lent_inc(head: Head) -> Head;
    safe fn copperyarn_lent_counter(head: Head) -> u64;
    safe fn copperyarn_lent_reset_counter(head: Head) -> Head;
    safe fn copperyarn_lent_is_pressed_by_code(
        head: Head, codes: &Codes, hasbutton: &Bools, values: &Values, times: &Times, marks: &Marks, pad: u8, code: u32,
    ) -> Truth;
    safe fn copperyarn_lent_is_pressed(
        head: Head, codes: &Codes, names: &Bytes, renames: &Bytes, hasbutton: &Bools, values: &Values, times: &Times,
        marks: &Marks, pad: u8, name: u8,
    ) -> Truth;
    safe fn copperyarn_lent_value_by_code(
        head: Head, codes: &Codes, hasbutton: &Bools, hasaxis: &Bools, values: &Values, times: &Times, marks: &Marks,
        pad: u8, code: u32,
    ) -> Value;
    safe fn copperyarn_lent_value(
        head: Head, names: &Bytes, renames: &Bytes, hasbutton: &Bools, hasaxis: &Bools, values: &Values, times: &Times,
        marks: &Marks, pad: u8, name: u8,
    ) -> Value;
    safe fn copperyarn_lent_button_data_by_code(
        head: Head, codes: &Codes, hasbutton: &Bools, values: &Values, times: &Times, marks: &Marks, pad: u8, code: u32,
    ) -> Button;
    safe fn copperyarn_lent_button_data(
        head: Head, names: &Bytes, renames: &Bytes, hasbutton: &Bools, values: &Values, times: &Times, marks: &Marks,
        pad: u8, name: u8,
    ) -> Button;
    safe fn copperyarn_lent_axis_data_by_code(
        head: Head, codes: &Codes, hasaxis: &Bools, values: &Values, times: &Times, pad: u8, code: u32,
    ) -> Axis;
    safe fn copperyarn_lent_axis_data(
        head: Head, names: &Bytes, renames: &Bytes, hasaxis: &Bools, values: &Values, times: &Times, pad: u8, name: u8,
    ) -> Axis;
    safe fn copperyarn_lent_deadzone_threshold(
        head: Head, codes: &Codes, kinds: &Bytes, values: &Values, marks: &Marks, pad: u8, code: u32,
    ) -> Value;
    safe fn copperyarn_lent_axis_or_btn_name(
        head: Head, codes: &Codes, names: &Bytes, renames: &Bytes, pad: u8, code: u32,
    ) -> Number;
    safe fn copperyarn_lent_code_of_name(
        head: Head, codes: &Codes, names: &Bytes, renames: &Bytes, pad: u8, name: u8,
    ) -> Number;
    safe fn copperyarn_lent_is_connected(head: Head, pad: u8) -> Truth;
    safe fn copperyarn_lent_is_old(head: Head, pad: u8) -> Truth;
    safe fn copperyarn_lent_down(head: Head, pad: u8) -> Down;
    safe fn copperyarn_lent_lowest_pressed(head: Head, codes: &Codes, pad: u8) -> Number;
    safe fn copperyarn_lent_waiting(head: Head) -> u8;
    safe fn copperyarn_deadzone(x: f32, y: f32, threshold: f32) -> TiltedPair;
}

/// The call that asks no hub.
pub(crate) fn deadzone(x: f32, y: f32, threshold: f32) -> TiltedPair {
    copperyarn_deadzone(x, y, threshold)
}

/// The calls that change the hub: each stores the head that comes back.
impl Fields {
    /// Makes a fresh hub of whatever stood here: the refusal's number.
    pub(crate) fn begin(&mut self, s: Settings) -> u8 {
        let Fields {
            codes,
            kinds,
            names,
            renames,
            hasbutton,
            hasaxis,
            values,
            times,
            marks,
            queuebytes,
            queuecodes,
            ..
        } = self;
        let done = copperyarn_lent_new(
            s.pressed,
            s.released,
            s.reversed_y,
            s.filters,
            s.updates,
            codes,
            kinds,
            names,
            renames,
            hasbutton,
            hasaxis,
            values,
            times,
            marks,
            queuebytes,
            queuecodes,
        );
        self.head = done.head;
        done.refusal
    }

    pub(crate) fn register(&mut self, sheet: &[u8]) -> Pad {
        let Fields { head, codes, kinds, names, hasbutton, hasaxis, values, marks, .. } = self;
        let (at, size) = (sheet.as_ptr(), sheet.len());
        // SAFETY: pointer and size are the sheet's.
        let registered = unsafe {
            copperyarn_lent_register(*head, codes, kinds, names, hasbutton, hasaxis, values, marks, at, size)
        };
        self.head = registered.head;
        registered.pad
    }

    pub(crate) fn register_archived(&mut self, sheet: &[u8]) -> Pad {
        let Fields { head, codes, kinds, names, hasbutton, hasaxis, values, marks, .. } = self;
        let (at, size) = (sheet.as_ptr(), sheet.len());
        // SAFETY: pointer and size are the sheet's.
        let registered = unsafe {
            copperyarn_lent_register_archived(*head, codes, kinds, names, hasbutton, hasaxis, values, marks, at, size)
        };
        self.head = registered.head;
        registered.pad
    }

    pub(crate) fn rename(&mut self, pad: u8, list: &[u8]) -> u8 {
        let Fields { head, codes, kinds, renames, .. } = self;
        // SAFETY: pointer and size are the list's.
        let done = unsafe { copperyarn_lent_rename(*head, codes, kinds, renames, pad, list.as_ptr(), list.len()) };
        self.head = done.head;
        done.refusal
    }

    pub(crate) fn pump(&mut self, batch: &[u8], place: usize, out: &mut [u8], allowance: u16) -> Report {
        let Fields {
            head,
            codes,
            kinds,
            names,
            renames,
            hasbutton,
            hasaxis,
            values,
            times,
            marks,
            queuebytes,
            queuecodes,
        } = self;
        let (from, size, to, room) = (batch.as_ptr(), batch.len(), out.as_mut_ptr(), out.len());
        // SAFETY: the first pointer and size are the batch's, the second the out buffer's, which is not shared.
        let pumped = unsafe {
            copperyarn_lent_pump(
                *head, codes, kinds, names, renames, hasbutton, hasaxis, values, times, marks, queuebytes, queuecodes,
                from, size, place, to, room, allowance,
            )
        };
        self.head = pumped.head;
        pumped.report
    }

    pub(crate) fn update(&mut self, event: &[u8]) -> u8 {
        let Fields { head, codes, kinds, hasbutton, hasaxis, values, times, marks, .. } = self;
        let (at, size) = (event.as_ptr(), event.len());
        // SAFETY: pointer and size are the event's.
        let done =
            unsafe { copperyarn_lent_update(*head, codes, kinds, hasbutton, hasaxis, values, times, marks, at, size) };
        self.head = done.head;
        done.refusal
    }

    pub(crate) fn insert_event(&mut self, event: &[u8]) -> u8 {
        let Fields { head, codes, values, times, queuebytes, queuecodes, .. } = self;
        let (at, size) = (event.as_ptr(), event.len());
        // SAFETY: pointer and size are the event's.
        let done =
            unsafe { copperyarn_lent_insert_event(*head, codes, values, times, queuebytes, queuecodes, at, size) };
        self.head = done.head;
        done.refusal
    }

    pub(crate) fn inc(&mut self) {
        self.head = copperyarn_lent_inc(self.head);
    }

    pub(crate) fn reset_counter(&mut self) {
        self.head = copperyarn_lent_reset_counter(self.head);
    }
}

/// The calls that only read.
impl Fields {
    pub(crate) fn repeat(&self, after: u64, every: u64, clock: u64, event: &mut [u8; 22]) -> Due {
        let Fields { head, codes, names, renames, hasbutton, values, times, marks, .. } = self;
        copperyarn_lent_repeat(
            *head, codes, names, renames, hasbutton, values, times, marks, after, every, clock, event,
        )
    }

    pub(crate) fn counter(&self) -> u64 {
        copperyarn_lent_counter(self.head)
    }

    pub(crate) fn is_pressed_by_code(&self, pad: u8, code: u32) -> Truth {
        let Fields { head, codes, hasbutton, values, times, marks, .. } = self;
        copperyarn_lent_is_pressed_by_code(*head, codes, hasbutton, values, times, marks, pad, code)
    }

    pub(crate) fn is_pressed(&self, pad: u8, name: u8) -> Truth {
        let Fields { head, codes, names, renames, hasbutton, values, times, marks, .. } = self;
        copperyarn_lent_is_pressed(*head, codes, names, renames, hasbutton, values, times, marks, pad, name)
    }

    pub(crate) fn value_by_code(&self, pad: u8, code: u32) -> Value {
        let Fields { head, codes, hasbutton, hasaxis, values, times, marks, .. } = self;
        copperyarn_lent_value_by_code(*head, codes, hasbutton, hasaxis, values, times, marks, pad, code)
    }

    pub(crate) fn value(&self, pad: u8, name: u8) -> Value {
        let Fields { head, names, renames, hasbutton, hasaxis, values, times, marks, .. } = self;
        copperyarn_lent_value(*head, names, renames, hasbutton, hasaxis, values, times, marks, pad, name)
    }

    pub(crate) fn button_data_by_code(&self, pad: u8, code: u32) -> Button {
        let Fields { head, codes, hasbutton, values, times, marks, .. } = self;
        copperyarn_lent_button_data_by_code(*head, codes, hasbutton, values, times, marks, pad, code)
    }

    pub(crate) fn button_data(&self, pad: u8, name: u8) -> Button {
        let Fields { head, names, renames, hasbutton, values, times, marks, .. } = self;
        copperyarn_lent_button_data(*head, names, renames, hasbutton, values, times, marks, pad, name)
    }

    pub(crate) fn axis_data_by_code(&self, pad: u8, code: u32) -> Axis {
        let Fields { head, codes, hasaxis, values, times, .. } = self;
        copperyarn_lent_axis_data_by_code(*head, codes, hasaxis, values, times, pad, code)
    }

    pub(crate) fn axis_data(&self, pad: u8, name: u8) -> Axis {
        let Fields { head, names, renames, hasaxis, values, times, .. } = self;
        copperyarn_lent_axis_data(*head, names, renames, hasaxis, values, times, pad, name)
    }

    pub(crate) fn deadzone(&self, pad: u8, code: u32) -> Value {
        let Fields { head, codes, kinds, values, marks, .. } = self;
        copperyarn_lent_deadzone_threshold(*head, codes, kinds, values, marks, pad, code)
    }

    pub(crate) fn axis_or_btn_name(&self, pad: u8, code: u32) -> Number {
        let Fields { head, codes, names, renames, .. } = self;
        copperyarn_lent_axis_or_btn_name(*head, codes, names, renames, pad, code)
    }

    pub(crate) fn code_of_name(&self, pad: u8, name: u8) -> Number {
        let Fields { head, codes, names, renames, .. } = self;
        copperyarn_lent_code_of_name(*head, codes, names, renames, pad, name)
    }

    pub(crate) fn is_connected(&self, pad: u8) -> Truth {
        copperyarn_lent_is_connected(self.head, pad)
    }

    pub(crate) fn is_old(&self, pad: u8) -> Truth {
        copperyarn_lent_is_old(self.head, pad)
    }

    pub(crate) fn down(&self, pad: u8) -> Down {
        copperyarn_lent_down(self.head, pad)
    }

    pub(crate) fn lowest_pressed(&self, pad: u8) -> Number {
        copperyarn_lent_lowest_pressed(self.head, &self.codes, pad)
    }

    pub(crate) fn waiting(&self) -> u8 {
        copperyarn_lent_waiting(self.head)
    }
}
