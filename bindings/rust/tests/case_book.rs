//! Every call through the safe wrappers, with answers by hand: `examples/case.book`, its page, its export
//! (`examples/case.cal`), and what is refused.

use apptbook::refusals::*;
use apptbook::Reason::*;
use apptbook::ShortMonth::{Last, Skip};
use apptbook::*;
use std::{fs, ptr};

const PAGE: &[u8] = b"1993-03-15 Mon 1\n10:00-11:00 Dep\n";

const FIRST: Date = Date { year: 1993, month: 3, day: 15 };

fn example(name: &str) -> Vec<u8> {
    fs::read(format!("{}/../../examples/{name}", env!("CARGO_MANIFEST_DIR"))).expect(name)
}

fn refused<T>(number: u32, place: usize) -> Result<T, Refusal> {
    Err(Refusal { number, place })
}

#[test]
fn the_book() {
    let file = example("case.book");
    let settings = Settings { start: 480, granularity: 30, lead: 5, alarm: true, carry_forward: false };
    assert_eq!(read_book(&file), Ok(Book { records: 1, settings }));
    let times = Times { start: 600, end: 660, lead: 5 };
    let dep =
        Record { at: 12, flag: true, entry: Entry::Dated { date: FIRST, times }, text: b"Dep", note: b"" };
    assert_eq!(record(&file, 0), Ok(dep));
    assert!(ptr::eq(record(&file, 0).unwrap().text, &file[27..30]));
    assert_eq!(note_lines(&file, 0), Ok(0));
    assert_eq!(note_line(&file, 0, 0), refused(NO_SUCH_NUMBER, 0));
    assert_eq!(record(&file, 1), refused(NO_SUCH_NUMBER, 0));
    let refusal = read_book(&file[..32]).unwrap_err();
    assert_eq!(refusal, Refusal { number: CUT_SHORT, place: 30 });
    assert_eq!(refusal.to_string(), "refused with number 4 at place 30");
}

#[test]
fn its_page() {
    let file = example("case.book");
    assert_eq!(page_lines(&file, 4_822, Skip), Ok(1));
    let line = PageLine { record: 0, text: b"Dep", start: 600, end: 660, alarm: true, moved: false };
    assert_eq!(page_line(&file, 4_822, Skip, 0), Ok(line));
    assert_eq!(page_line(&file, 4_822, Skip, 1), refused(NO_SUCH_NUMBER, 0));
    assert_eq!(page_length(&file, 4_822, Last), Ok(PAGE.len()));
    let mut buffer = [b'#'; 40];
    assert_eq!(print_page(&file, 4_822, Skip, &mut buffer[..32]), refused(NO_ROOM, 0));
    assert_eq!(buffer, [b'#'; 40]);
    assert_eq!(print_page(&file, 4_822, Skip, &mut buffer), Ok(33));
    assert_eq!(buffer, *b"1993-03-15 Mon 1\n10:00-11:00 Dep\n#######");
    assert_eq!(falls_on(&file, 0, 4_822, Skip), Ok(Falls::OnItsDay));
    assert_eq!(falls_on(&file, 0, 4_823, Skip), Ok(Falls::Not));
    let why = |record, day| why(&file, record, day, Skip);
    assert_eq!([4_821, 4_822, 4_823].map(|day| why(0, day)), [BeforeStart, OwnDay, AfterEnd].map(Ok));
    assert_eq!(why(1, 4_822), refused(NO_SUCH_NUMBER, 0));
    assert_eq!(why(1, 43_830), refused(OUT_OF_RANGE, 0));
    assert_eq!(next_occurrence(&file, 0, 4_800, Skip), Ok(Occurrence { day: Some(4_822), looked: 23 }));
    assert_eq!(next_occurrence(&file, 0, 43_828, Skip), Ok(Occurrence { day: None, looked: 2 }));
    assert_eq!(page_lines(&file, 43_830, Skip), refused(OUT_OF_RANGE, 0));
}

#[test]
fn its_export() {
    let (file, expected) = (example("case.book"), example("case.cal"));
    let mut buffer = [b'#'; 200];
    assert_eq!(export(&file, 4_822, 1, Skip, &mut buffer[..191]), refused(NO_ROOM, 0));
    assert_eq!(buffer, [b'#'; 200]);
    assert_eq!(export(&file, 4_822, 1, Skip, &mut buffer), Ok(192));
    assert_eq!(buffer[..192], expected);
    assert_eq!(buffer[192..], [b'#'; 8]);
    assert_eq!(export(&file, 4_822, 367, Skip, &mut buffer), refused(OUT_OF_RANGE, 0));

    let calendar = &expected[..];
    assert_eq!(read_calendar(calendar), Ok(1));
    assert_eq!(calendar_day(calendar, 0), Ok(Descriptor { day: 4_822, offset: 2 }));
    assert_eq!(calendar_appointments(calendar, 4_822), Ok(1));
    let dep = Appointment { text: b"Dep", minute: 600, flags: FLAG_ALARM };
    assert_eq!(calendar_appointment(calendar, 4_822, 0), Ok(dep));
    assert_eq!(calendar_appointment(calendar, 4_823, 0), refused(NO_SUCH_NUMBER, 0));
    assert_eq!(read_calendar(&file), refused(NOT_A_CALENDAR, 0));
}

#[test]
fn written_again() {
    let file = example("case.book");
    let mut buffer = [b'#'; 35];
    let state = open(read_book(&file).unwrap().settings, &mut buffer).unwrap();
    assert_eq!(state, Writer { used: 12, closed: false });
    let dep = record(&file, 0).unwrap();
    assert_eq!(add(state, &mut buffer[..32], dep), refused(NO_ROOM, 0));
    let state = add(state, &mut buffer, dep).unwrap();
    let state = close(state, &mut buffer).unwrap();
    assert_eq!(state, Writer { used: 33, closed: true });
    assert_eq!(buffer[..33], file);
    assert_eq!(buffer[33..], *b"##");
    assert_eq!(close(state, &mut buffer), refused(NOT_OPEN, 0));
}

/// Day 31 in April, which has 30.
#[test]
fn short_months() {
    let mut buffer = [0; 34];
    let settings = Settings { granularity: 30, ..Settings::default() };
    let (rule, last) = (Rule::MonthlyByDate { day: 31 }, Date { month: 12, ..FIRST });
    let entry = Entry::Repeated { rule, first: FIRST, last, times: Times::default() };
    let state = open(settings, &mut buffer).unwrap();
    let state = add(state, &mut buffer, Record { at: 0, flag: false, entry, text: b"", note: b"" }).unwrap();
    assert_eq!(close(state, &mut buffer).unwrap().used, 34);
    let next = |choice| next_occurrence(&buffer, 0, 4_839, choice).unwrap().day;
    assert_eq!(next(Skip), Some(4_899)); // 31 May
    assert_eq!(next(Last), Some(4_868)); // 30 April
    assert_eq!(next(ShortMonth::default()), Some(4_868), "who names none gets last");
    assert_eq!(falls_on(&buffer, 0, 4_868, Skip), Ok(Falls::Not));
    assert_eq!(falls_on(&buffer, 0, 4_868, Last), Ok(Falls::Moved));
    assert_eq!(falls_on(&buffer, 0, 4_899, Last), Ok(Falls::OnItsDay));
    assert_eq!([Falls::Not, Falls::OnItsDay, Falls::Moved].map(Falls::is_shown), [false, true, true]);
    assert_eq!([Skip, Last].map(|choice| why(&buffer, 0, 4_868, choice)), [MonthTooShort, Moved].map(Ok));
    assert_eq!([4_898, 4_899].map(|day| why(&buffer, 0, day, Last)), [WrongDay, OwnDay].map(Ok));
    let line = PageLine { record: 0, text: b"", start: 0, end: 0, alarm: false, moved: true };
    assert_eq!(page_line(&buffer, 4_868, Last, 0), Ok(line));
    assert_eq!(page_line(&buffer, 4_899, Last, 0), Ok(PageLine { moved: false, ..line }));
    let mut page = [0; 31];
    assert_eq!(print_page(&buffer, 4_868, Last, &mut page), Ok(31));
    assert_eq!(page, *b"1993-04-30 Fri 1\n00:00-00:00* \n");
}

/// The paper's words, of which two say that a record is shown.
#[test]
fn reasons() {
    let all = [OwnDay, Moved, IsToDo, BeforeStart, AfterEnd, WrongMonth];
    let words = all.map(|reason| reason.to_string());
    assert_eq!(words, ["on its own day", "moved", "is a to-do", "before start", "after end", "wrong month"]);
    let others = [MonthTooShort, WrongDay, WrongWeekday, WrongWeek];
    let words = others.map(|reason| reason.to_string());
    assert_eq!(words, ["month too short", "wrong day of month", "wrong weekday", "wrong week"]);
    assert_eq!(all.map(Reason::is_shown), [true, true, false, false, false, false]);
    assert_eq!(others.map(Reason::is_shown), [false; 4]);
    assert_eq!(format!("{:>9}|{:<6}|", AfterEnd, Moved), "after end|moved |");
}

#[test]
fn days() {
    let facts = Facts { calendar_day: 4_822, date: FIRST, weekday: 2, month_length: 31 };
    assert_eq!(day_of_date(FIRST), Ok(4_822));
    assert_eq!(date_of_day(4_822), Ok(FIRST));
    assert_eq!(day_facts(4_822), Ok(facts));
    let next = Facts { calendar_day: 4_823, date: Date { day: 16, ..FIRST }, weekday: 3, ..facts };
    assert_eq!(next_day(facts), Ok(next));
    assert_eq!(weekday(4_822), Ok(2));
    assert_eq!(month_length(2000, 2), Ok(29));
    assert_eq!(calendar_of_psion(8_474), Ok(4_822));
    assert_eq!(psion_of_calendar(4_822), Ok(8_474));
    assert!(is_real_date(FIRST) && !is_real_date(Date { year: 1993, month: 2, day: 29 }));
    assert_eq!(day_of_date(Date::default()), refused(OUT_OF_RANGE, 0));
}

/// 22 March 1993: record 1, then 0. 26 March 1993: record 2.
#[test]
fn chains() {
    let table = [93, 3, 22, 1, 0, 93, 3, 26, 2, 0, 0, 0, 0, 255, 255];
    let check = |minutes: [u16; 3]| {
        check_chains(&table, &[1, 65_535, 65_535], &[65_535, 0, 65_535], &[1, 1, 2], &minutes)
    };
    assert_eq!(check([600, 540, 0]), Ok(2));
    assert_eq!(check([540, 600, 0]), refused(BAD_CHAIN_ORDER, 0));
}
