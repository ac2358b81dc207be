//! The Calendar reader.

use super::pages::CountAnswer;

unsafe extern "C" {
    pub fn apptbook_read_calendar(file: *const u8, len: usize) -> CountAnswer;
    pub fn apptbook_calendar_day(file: *const u8, len: usize, descriptor: usize) -> DescriptorAnswer;
    pub fn apptbook_calendar_appointments(file: *const u8, len: usize, day: u16) -> CountAnswer;
    pub fn apptbook_calendar_appointment(
        file: *const u8,
        len: usize,
        day: u16,
        appointment: usize,
    ) -> AppointmentAnswer;
}

pub fn read_calendar(file: &[u8]) -> CountAnswer {
    // SAFETY: the slice's bytes are there, and the library only reads them.
    unsafe { apptbook_read_calendar(file.as_ptr(), file.len()) }
}

pub fn calendar_day(file: &[u8], descriptor: usize) -> DescriptorAnswer {
    // SAFETY: the slice's bytes are there, and the library only reads them.
    unsafe { apptbook_calendar_day(file.as_ptr(), file.len(), descriptor) }
}

pub fn calendar_appointments(file: &[u8], day: u16) -> CountAnswer {
    // SAFETY: the slice's bytes are there, and the library only reads them.
    unsafe { apptbook_calendar_appointments(file.as_ptr(), file.len(), day) }
}

pub fn calendar_appointment(file: &[u8], day: u16, appointment: usize) -> AppointmentAnswer {
    // SAFETY: the slice's bytes are there, and the library only reads them.
    unsafe { apptbook_calendar_appointment(file.as_ptr(), file.len(), day, appointment) }
}

#[repr(C)]
#[derive(Clone, Copy, Debug, Default, PartialEq, Eq)]
pub struct DescriptorAnswer {
    pub number: u32,
    pub place: usize,
    pub day: u16,
    pub offset: u16,
}

#[repr(C)]
#[derive(Clone, Copy, Debug, Default, PartialEq, Eq)]
pub struct AppointmentAnswer {
    pub number: u32,
    pub place: usize,
    pub text_at: usize,
    pub text_length: usize,
    pub minute: u16,
    pub flags: u16,
}
