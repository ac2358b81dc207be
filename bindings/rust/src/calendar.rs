//! Reading a Windows Calendar file. Each call judges the whole file first (20 to 24); then come, each with place 0 and
//! in this order, 11 for a day over 43,829, and 10. Descriptors and appointments count from 0.

use crate::raw::calendar as raw;
use crate::Refusal;

/// A day of the file.
#[derive(Clone, Copy, Debug, Default, PartialEq, Eq)]
pub struct Descriptor {
    /// A Calendar day.
    pub day: u16,
    /// Of its block in units of 64 bytes, as it is stored.
    pub offset: u16,
}

/// An appointment of a day.
#[derive(Clone, Copy, Debug, PartialEq, Eq)]
pub struct Appointment<'a> {
    /// 0 to 250 bytes of the file, none of them zero.
    pub text: &'a [u8],
    /// 0 to 1,439, not below that of the appointment before.
    pub minute: u16,
    /// [`FLAG_ALARM`] and [`FLAG_SPECIAL_TIME`], added.
    pub flags: u16,
}

/// Alarm on.
pub const FLAG_ALARM: u16 = 1;
/// At a special time, which is not a multiple of the file's interval.
pub const FLAG_SPECIAL_TIME: u16 = 2;

/// How many descriptors the file has: its days.
pub fn read_calendar(file: &[u8]) -> Result<usize, Refusal> {
    raw::read_calendar(file).counted()
}

/// The day and the block offset of a descriptor. Refused with 10 when there are not so many.
pub fn calendar_day(file: &[u8], descriptor: usize) -> Result<Descriptor, Refusal> {
    let raw::DescriptorAnswer { number, place, day, offset } = raw::calendar_day(file, descriptor);
    Refusal::check(number, place)?;
    Ok(Descriptor { day, offset })
}

/// How many appointments a day has. Refused with 11.
pub fn calendar_appointments(file: &[u8], day: u16) -> Result<usize, Refusal> {
    raw::calendar_appointments(file, day).counted()
}

/// An appointment of a day. Refused with 11, then with 10 when the day has no such appointment.
pub fn calendar_appointment(file: &[u8], day: u16, appointment: usize) -> Result<Appointment<'_>, Refusal> {
    let raw::AppointmentAnswer { number, place, text_at, text_length, minute, flags } =
        raw::calendar_appointment(file, day, appointment);
    Refusal::check(number, place)?;
    Ok(Appointment { text: &file[text_at..text_at + text_length], minute, flags })
}
