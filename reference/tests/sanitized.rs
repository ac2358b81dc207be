//! `host.c`, compiled with gcc's sanitizers for addresses and undefined behaviour: it looks at every byte that an answer
//! points to, in files and buffers allocated with just their length. What it saw is what the reference gives.

use apptbook::raw::book::BookAnswer;
use apptbook::raw::pages::{CountAnswer, FallsAnswer};
use apptbook::raw::reasons::ReasonAnswer;
use reference::answers::IntoAnswer;
use reference::chains::check_chains;
use reference::day_chains::{packed, unpacked};
use reference::fuzz::chains::any_chains;
use reference::fuzz::files;
use reference::fuzz::numbers::SHORT_MONTH;
use reference::pages::{ShortMonth, CHOICES};
use reference::rng::Rng;
use reference::vectors::fillers::filled;
use reference::vectors::{calendars, chains, every_kind, WHOLE_CASE};
use reference::writer::{self, NewRecord};
use reference::{book, calendar, export, notes, pages, printed, reasons};
use std::fs;
use std::path::{Path, PathBuf};
use std::process::{Command, Output};

const MOST_RECORDS: usize = 40;
const DAYS: [u16; 4] = [4_822, SHORT_MONTH, 59, 43_829];

/// FNV-1a, of 64 bits.
struct Hash(u64);

impl Hash {
    fn bytes(&mut self, bytes: &[u8]) {
        for &byte in bytes {
            self.0 = (self.0 ^ u64::from(byte)).wrapping_mul(1_099_511_628_211);
        }
    }

    fn number(&mut self, number: usize) {
        self.bytes(&number.to_le_bytes());
    }

    fn refusal<T>(&mut self, result: Result<T, reference::refusal::Refusal>) {
        self.number(result.err().map_or(0, |refusal| refusal.number as usize));
    }

    fn record(&mut self, file: &[u8], number: usize) {
        let record = book::record(file, number).expect("a record");
        let note = &file[record.note];
        self.bytes(&file[record.text]);
        self.bytes(note);
        for line in notes::lines(note) {
            self.bytes(&note[line]);
        }
        for (at, day) in DAYS.into_iter().enumerate() {
            let choice = if at > 0 { ShortMonth::Last } else { ShortMonth::Skip };
            let answer: FallsAnswer = pages::falls_on(file, number, day, choice).answer();
            self.number(answer.falls.into());
            for either in CHOICES {
                let answer: ReasonAnswer = reasons::why(file, number, day, either).answer();
                self.number(answer.reason.into());
            }
            let search = pages::next_occurrence(file, number, day, choice).expect("a record");
            self.number(search.looked as usize);
        }
    }

    fn page(&mut self, file: &[u8], day: u16, choice: ShortMonth) {
        for line in pages::page(file, day, choice).expect("a right book").into_iter().take(MOST_RECORDS) {
            self.number(line.start.into());
            self.number(line.moved.into());
            self.bytes(&file[line.text]);
        }
        let page = printed::printed_page(file, day, choice).expect("a right book");
        self.number(page.len());
        self.bytes(&page);
        self.number(12);
    }

    fn calendar(&mut self, file: &[u8]) {
        let days = calendar::read_calendar(file).expect("a right file");
        for number in 0..days.min(MOST_RECORDS) {
            let day = calendar::calendar_day(file, number).expect("a day").day;
            let list = calendar::day_appointments(file, day).expect("a right file");
            for appointment in list.into_iter().take(MOST_RECORDS) {
                self.number(appointment.minute.into());
                self.number(appointment.flags.into());
                self.bytes(&file[appointment.text]);
            }
        }
    }

    fn export(&mut self, file: &[u8], choice: ShortMonth) {
        let mut buffer = vec![0; calendar::LONGEST];
        let answer = export::export(file, 4_822, 60, choice, &mut buffer);
        self.refusal(answer);
        if let Ok(length) = answer {
            self.number(length);
            self.bytes(&buffer[..length]);
            self.number(12);
            self.calendar(&buffer[..length]);
        }
    }

    fn written(&mut self, file: &[u8]) {
        let mut buffer = vec![0; file.len()];
        let settings = book::read_book(file).expect("a right book").settings;
        let mut state = writer::open(settings, &mut buffer).expect("room");
        for record in book::records(file).expect("a right book").into_iter().take(MOST_RECORDS) {
            let (text, note) = (&file[record.text], &file[record.note]);
            let new = NewRecord { flag: record.flag, entry: Some(record.entry), text, note };
            state = writer::add(state, &mut buffer, new).expect("room");
        }
        let used = writer::close(state, &mut buffer).expect("room").used;
        self.number(0);
        self.bytes(&buffer[..used]);
    }

    fn numbers(&mut self, file: &[u8]) {
        use ShortMonth::{Last, Skip};
        let far = usize::MAX;
        self.number(usize::from(pages::DEFAULT == Last));
        self.refusal(book::record(file, far));
        self.refusal(book::note_lines(file, 0));
        self.refusal(book::note_line(file, 0, far));
        self.refusal(pages::falls_on(file, 0, 43_830, Skip));
        self.refusal(reasons::why(file, 0, 43_830, Skip));
        self.refusal(reasons::why(file, far, 43_829, Last));
        self.refusal(pages::next_occurrence(file, 0, 65_535, Skip));
        self.refusal(pages::page_lines(file, 43_830, Last));
        self.refusal(pages::page_line(file, 0, Last, far));
        self.refusal(printed::page_length(file, 43_830, Last));
        self.refusal(printed::print_page(file, 4_822, Last, &mut [0]));
        self.refusal(calendar::calendar_day(file, far));
        self.refusal(calendar::calendar_appointments(file, 43_830));
        self.refusal(calendar::calendar_appointment(file, 0, far));
        self.refusal(export::export(file, 43_829, 2, Last, &mut [0]));
        self.number(0);
    }
}

fn line(file: &[u8]) -> String {
    let mut hash = Hash(14_695_981_039_346_656_037);
    let book: BookAnswer = book::read_book(file).answer();
    let calendar: CountAnswer = calendar::read_calendar(file).answer();
    let chains: CountAnswer = unpacked(file).lent_to(check_chains).answer();
    hash.numbers(file);
    if book.number == 0 {
        for number in 0..book.records.min(MOST_RECORDS) {
            hash.record(file, number);
        }
        for (day, choice) in DAYS.into_iter().flat_map(|day| CHOICES.map(|choice| (day, choice))) {
            hash.page(file, day, choice);
        }
        for choice in CHOICES {
            hash.export(file, choice);
        }
        hash.written(file);
    }
    if calendar.number == 0 {
        hash.calendar(file);
    }
    let of_book = format!("{} {} {}", book.number, book.place, book.records);
    let counted = |answer: CountAnswer| format!("{} {} {}", answer.number, answer.place, answer.count);
    format!("{of_book} {} {} {:016x}", counted(calendar), counted(chains), hash.0)
}

fn succeed(command: &mut Command) -> Output {
    let output = command.output().unwrap_or_else(|e| panic!("{command:?}: {e}"));
    let complaint = String::from_utf8_lossy(&output.stderr);
    assert!(output.status.success(), "{}\n{complaint}", output.status);
    assert!(complaint.is_empty(), "{complaint}");
    output
}

fn host() -> PathBuf {
    let here = Path::new(env!("CARGO_MANIFEST_DIR"));
    let host = Path::new(env!("CARGO_TARGET_TMPDIR")).join("sanitized-host");
    let sanitizers = ["-fsanitize=address,undefined", "-fno-sanitize-recover=all", "-g", "-O1"];
    succeed(
        Command::new("gcc")
            .args(["-std=c99", "-pedantic", "-Wall", "-Wextra", "-Werror"])
            .args(sanitizers)
            .arg("-I")
            .arg(here.join("../include"))
            .arg(here.join("tests/host.c"))
            .args([env!("APPTBOOK_ARCHIVE"), "-o"])
            .arg(&host),
    );
    host
}

#[test]
fn every_byte_that_an_answer_points_to() {
    let mut rng = Rng::for_test("every_byte_that_an_answer_points_to");
    let folder = Path::new(env!("CARGO_TARGET_TMPDIR")).join("sanitized-files");
    let _ = fs::remove_dir_all(&folder);
    fs::create_dir_all(&folder).expect("a folder");
    let mut all =
        vec![vec![], WHOLE_CASE.to_vec(), every_kind(), calendars::whole_case(), calendars::two_days()];
    all.extend([1, 95, 127, 128].map(filled));
    all.extend([packed(&chains::example()), packed(&chains::three_days())]);
    for _ in 0..300 {
        all.extend([files::book(&mut rng), files::calendar(&mut rng), packed(&any_chains(&mut rng))]);
    }
    let names: Vec<PathBuf> = (0..all.len()).map(|number| folder.join(format!("{number:04}"))).collect();
    for (name, file) in names.iter().zip(&all) {
        fs::write(name, file).expect("a file");
    }
    let output = succeed(Command::new(host()).args(&names));
    let seen = String::from_utf8(output.stdout).expect("plain text");
    let mut seen = seen.lines();
    assert_eq!(seen.next(), Some(&line(&[])[..]), "no file at all");
    for (name, file) in names.iter().zip(&all) {
        assert_eq!(seen.next(), Some(&line(file)[..]), "{}", name.display());
    }
    assert_eq!(seen.next(), None);
    let right = all.iter().filter(|file| book::read_book(file).is_ok()).count();
    assert!(right >= 50, "{right} right books");
    let is_moved = |line: &pages::Line| line.moved;
    let lines = all.iter().filter_map(|file| pages::page(file, SHORT_MONTH, ShortMonth::Last).ok()).flatten();
    let moved = lines.filter(is_moved).count();
    assert!(moved >= 10, "{moved} moved lines");
    let right = all.iter().filter(|file| unpacked(file).lent_to(check_chains).is_ok()).count();
    assert!(right >= 50, "{right} right day chains");
}
