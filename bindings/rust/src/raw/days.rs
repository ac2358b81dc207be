//! Day arithmetic.

// Numbers and structs of numbers go over by value, so every call is safe.
unsafe extern "C" {
    #[link_name = "apptbook_month_length"]
    pub safe fn month_length(year: u16, month: u16) -> LengthAnswer;
    #[link_name = "apptbook_is_real_date"]
    pub safe fn is_real_date(year: u16, month: u16, day: u16) -> bool;
    #[link_name = "apptbook_day_of_date"]
    pub safe fn day_of_date(year: u16, month: u16, day: u16) -> DayAnswer;
    #[link_name = "apptbook_date_of_day"]
    pub safe fn date_of_day(day: u16) -> DateAnswer;
    #[link_name = "apptbook_weekday"]
    pub safe fn weekday(day: u16) -> WeekdayAnswer;
    #[link_name = "apptbook_day_facts"]
    pub safe fn day_facts(day: u16) -> FactsAnswer;
    #[link_name = "apptbook_next_day"]
    pub safe fn next_day(facts: FactsAnswer) -> FactsAnswer;
    #[link_name = "apptbook_calendar_of_psion"]
    pub safe fn calendar_of_psion(day: u16) -> DayAnswer;
    #[link_name = "apptbook_psion_of_calendar"]
    pub safe fn psion_of_calendar(day: u16) -> DayAnswer;
}

#[repr(C)]
#[derive(Clone, Copy, Debug, Default, PartialEq, Eq)]
pub struct LengthAnswer {
    pub number: u32,
    pub place: usize,
    pub length: u16,
}

#[repr(C)]
#[derive(Clone, Copy, Debug, Default, PartialEq, Eq)]
pub struct DayAnswer {
    pub number: u32,
    pub place: usize,
    pub day: u16,
}

#[repr(C)]
#[derive(Clone, Copy, Debug, Default, PartialEq, Eq)]
pub struct DateAnswer {
    pub number: u32,
    pub place: usize,
    pub year: u16,
    pub month: u16,
    pub day: u16,
}

#[repr(C)]
#[derive(Clone, Copy, Debug, Default, PartialEq, Eq)]
pub struct WeekdayAnswer {
    pub number: u32,
    pub place: usize,
    pub weekday: u16,
}

#[repr(C)]
#[derive(Clone, Copy, Debug, Default, PartialEq, Eq)]
pub struct FactsAnswer {
    pub number: u32,
    pub place: usize,
    pub calendar_day: u16,
    pub year: u16,
    pub month: u16,
    pub day: u16,
    pub weekday: u16,
    pub month_length: u16,
}
