//! `include/apptbook.h`: compiles as strict C99 and as C++, links, and says what the library does.

use apptbook::raw::days::{DateAnswer, DayAnswer, FactsAnswer, LengthAnswer, WeekdayAnswer};
use std::path::Path;
use std::process::{Command, Output};

fn expected() -> String {
    let sizes = [
        size_of::<LengthAnswer>(),
        size_of::<DayAnswer>(),
        size_of::<DateAnswer>(),
        size_of::<WeekdayAnswer>(),
        size_of::<FactsAnswer>(),
    ];
    let sizes = sizes.map(|size| size.to_string()).join(" ");
    format!("version {}\n{REFUSALS}sizes {sizes}\n{CALLS}", apptbook::VERSION)
}

const REFUSALS: &str = "refusals 0 1 2 3 4 5 6 7 8 9 10 11 12 13 14 20 21 22 23 24 30 31 32 33\n";

const CALLS: &str = "\
month_length 0 0 29
is_real_date 1 0
day_of_date 0 0 4822
day_of_date 11 0 0
date_of_day 0 0 1993-3-15
weekday 0 0 2
day_facts 0 0 4822 1993-3-15 2 31
next_day 0 0 7364 2000-2-29 3 29
next_day 11 0 0 0-0-0 0 0
calendar_of_psion 0 0 0
calendar_of_psion 11 0 0
psion_of_calendar 0 0 29219
";

/// Compiles and runs `source` by `compiler`.
fn run(source: &str, compiler: &str, language: &[&str]) -> String {
    let here = Path::new(env!("CARGO_MANIFEST_DIR"));
    let program = Path::new(env!("CARGO_TARGET_TMPDIR")).join(format!("{source}-{compiler}"));
    succeed(
        Command::new(compiler)
            .args(language)
            .args(["-pedantic", "-Wall", "-Wextra", "-Werror", "-I"])
            .arg(here.join("../include"))
            .arg(here.join("tests").join(source))
            .args(["-x", "none", env!("APPTBOOK_ARCHIVE"), "-o"])
            .arg(&program),
    );
    String::from_utf8(succeed(&mut Command::new(&program)).stdout).expect("plain text")
}

fn succeed(command: &mut Command) -> Output {
    let output = command.output().unwrap_or_else(|e| panic!("{command:?}: {e}"));
    assert!(output.status.success(), "{command:?}\n{}", String::from_utf8_lossy(&output.stderr));
    output
}

/// What a source prints, in either language.
macro_rules! in_both {
    ($source:literal, $expected:expr) => {
        #[test]
        fn the_header_works_in_c99() {
            assert_eq!(crate::run($source, "cc", &["-std=c99"]), $expected);
        }

        #[test]
        fn the_header_works_in_cpp() {
            assert_eq!(crate::run($source, "c++", &["-std=c++11", "-x", "c++"]), $expected);
        }
    };
}

in_both!("header.c", expected());

/// The crate has the same numbers, which the sources print.
#[test]
fn the_numbers_of_the_crate() {
    use apptbook::raw::book::*;
    use apptbook::raw::pages::{FALLS_MOVED, FALLS_NOT, FALLS_ON_ITS_DAY};
    use apptbook::raw::reasons::*;
    use apptbook::refusals::*;
    let refusals = [
        [0, BOOK_TOO_LONG, NOT_A_BOOK, BAD_SETTINGS, CUT_SHORT, UNKNOWN_TYPE].as_slice(),
        &[BAD_LENGTH, BAD_FIELD, BAD_TEXT, AFTER_END, NO_SUCH_NUMBER],
        &[OUT_OF_RANGE, NO_ROOM, TOO_MANY_BLOCKS, NOT_OPEN],
        &[CALENDAR_TOO_LONG, NOT_A_CALENDAR, BAD_TABLE, BAD_BLOCK, BAD_APPOINTMENT],
        &[BAD_ARRAYS, BAD_DAY_TABLE, BAD_CHAIN, BAD_CHAIN_ORDER],
    ];
    let words: Vec<String> = refusals.concat().iter().map(u32::to_string).collect();
    assert_eq!(format!("refusals {}\n", words.join(" ")), REFUSALS);
    let kinds = [DATED, WEEKLY, MONTHLY_BY_DATE, MONTHLY_BY_POSITION, YEARLY, TO_DO];
    assert!(book::CALLS.starts_with(&format!("kinds {}\n", kinds.map(|kind| kind.to_string()).join(" "))));
    let falls = format!("falls {FALLS_NOT} {FALLS_ON_ITS_DAY} {FALLS_MOVED}\n");
    let reasons = [
        [OWN_DAY, MOVED, IS_TO_DO, BEFORE_START, AFTER_LAST_DAY],
        [WRONG_MONTH, MONTH_TOO_SHORT, WRONG_DAY, WRONG_WEEKDAY, WRONG_WEEK],
    ];
    let words: Vec<String> = reasons.concat().iter().map(u16::to_string).collect();
    assert!(pages::CALLS.starts_with(&format!("{falls}reasons {}\n", words.join(" "))));
    let flags = format!("flags {} {}\n", apptbook::FLAG_ALARM, apptbook::FLAG_SPECIAL_TIME);
    assert!(calendar::CALLS.starts_with(&flags));
}

mod book {
    use apptbook::raw::book::{BookAnswer, LineAnswer, LinesAnswer, RecordAnswer};

    fn expected() -> String {
        let sizes = [
            size_of::<BookAnswer>(),
            size_of::<RecordAnswer>(),
            size_of::<LinesAnswer>(),
            size_of::<LineAnswer>(),
        ];
        format!("sizes {}\n{CALLS}", sizes.map(|size| size.to_string()).join(" "))
    }

    pub const CALLS: &str = "\
kinds 1 2 3 4 5 6
read_book 0 0 1 480 30 5 1 0
read_book 4 12 0 0 0 0 0 0
record 0 0 at 12 text 27 3 note 30 6 kind 1 rule 0 0 0 0 0 times 600 660 5
  1993-3-15 0-0-0 0-0-0 flags 1 0 Dep
record 10 0 at 0 text 0 0 note 0 0 kind 0 rule 0 0 0 0 0 times 0 0 0
  0-0-0 0-0-0 0-0-0 flags 0 0\u{20}
note_lines 0 0 2
note_line 0 0 34 2 me
note_line 10 0 0 0\u{20}
";

    in_both!("book.c", expected());
}

mod writer {
    use apptbook::raw::writer::WriterAnswer;

    fn expected() -> String {
        format!("sizes {}\n{CALLS}", size_of::<WriterAnswer>())
    }

    const CALLS: &str = "\
open 12 0 0 0
open 0 0 12 0
add 12 0 12 0
add 0 0 30 0
close 0 0 33 1
add 14 0 33 1
close 14 0 33 1
same 1
";

    in_both!("writer.c", expected());
}

mod pages {
    use apptbook::raw::pages::{CountAnswer, FallsAnswer, OccurrenceAnswer, PageLineAnswer};
    use apptbook::raw::reasons::ReasonAnswer;

    fn expected() -> String {
        let sizes = [
            size_of::<FallsAnswer>(),
            size_of::<ReasonAnswer>(),
            size_of::<OccurrenceAnswer>(),
            size_of::<CountAnswer>(),
            size_of::<PageLineAnswer>(),
        ];
        format!("sizes {}\n{CALLS}", sizes.map(|size| size.to_string()).join(" "))
    }

    pub const CALLS: &str = "\
falls 0 1 2
reasons 1 2 3 4 5 6 7 8 9 10
default_last 1
falls_on 0 0 1
falls_on 0 0 1
falls_on 0 0 0
falls_on 0 0 2
falls_on 0 0 2
falls_on 10 0 0
why 0 0 1
why 0 0 5
why 0 0 8
why 0 0 7
why 0 0 2
why 10 0 0
why 11 0 0
why 4 49 0
next_occurrence 0 0 61 4899 1
next_occurrence 0 0 30 4868 1
next_occurrence 0 0 39007 0 0
next_occurrence 11 0 0 0 0
page_lines 0 0 1
page_lines 4 49 0
page_line 0 0 record 0 text 27 3 times 600 660 alarm 1 moved 0 Dep
page_line 10 0 record 0 text 0 0 times 0 0 alarm 0 moved 0\u{20}
page_line 0 0 record 1 text 49 0 times 0 0 alarm 0 moved 1\u{20}
page_length 0 0 30
print_page 12 0 0
untouched 1
print_page 0 0 30
1993-03-31 Wed 1
00:00-00:00\u{20}
#
page_length 0 0 31
1993-04-30 Fri 1
00:00-00:00*\u{20}
";

    in_both!("pages.c", expected());
}

mod calendar {
    use apptbook::raw::calendar::{AppointmentAnswer, DescriptorAnswer};

    fn expected() -> String {
        let sizes = [size_of::<DescriptorAnswer>(), size_of::<AppointmentAnswer>()];
        format!("sizes {}\n{CALLS}", sizes.map(|size| size.to_string()).join(" "))
    }

    pub const CALLS: &str = "\
flags 1 2
read_calendar 0 0 1
read_calendar 21 0 0
read_calendar 22 64 0
read_calendar 23 64 0
calendar_day 0 0 4822 2
calendar_day 10 0 0 0
calendar_appointments 0 0 1
calendar_appointments 0 0 0
calendar_appointments 11 0 0
calendar_appointment 0 0 text 142 3 minute 600 flags 1 Dep
calendar_appointment 10 0 text 0 0 minute 0 flags 0\u{20}
calendar_appointment 11 0 text 0 0 minute 0 flags 0\u{20}
";

    in_both!("calendar.c", expected());
}

mod export {
    const CALLS: &str = "\
export 4 30 0
export 11 0 0
export 12 0 0
untouched 1
export 0 0 64
export 0 0 192
read_calendar 0 0 1
calendar_appointment 0 0 600 1 Dep
untouched 1
";

    in_both!("export.c", CALLS);
}

mod chains {
    const CALLS: &str = "\
check_chains 0 0 2
check_chains 31 2 0
check_chains 31 1 0
check_chains 31 0 0
check_chains 32 1 0
check_chains 32 0 0
check_chains 30 0 0
check_chains 30 0 0
check_chains 30 0 0
check_chains 30 0 0
check_chains 32 0 0
check_chains 32 0 0
check_chains 33 0 0
check_chains 0 0 0
check_chains 31 0 0
";

    in_both!("chains.c", CALLS);
}
