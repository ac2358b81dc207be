/* Calls everything that include/apptbook.h declares about books; header.rs knows what it prints. */
#include "apptbook.h"

#include <stdio.h>

/* The case of document 01, and a note to it: "ask" and "me". */
static const uint8_t file[] = {0xFF, 0xFF, 0x01, 0x00, 0x01, 0xE0, 0x01, 0x1E, 0x00, 0x01, 0x05, 0x00, 0x01,
                               0x15, 0x00, 0x01, 0x5D, 0x03, 0x0F, 0x02, 0x58, 0x94, 0x02, 0x05, 0x03, 0x06,
                               0x00, 'D',  'e',  'p',  'a',  's',  'k',  0x00, 'm',  'e',  0x32, 0x00, 0x00};

static void print_book(apptbook_book_answer r) {
    printf("read_book %u %zu %zu %u %u %u %d %d\n", (unsigned)r.number, r.place, r.records, (unsigned)r.start,
           (unsigned)r.granularity, (unsigned)r.lead, r.alarm, r.carry_forward);
}

static void print_record(apptbook_record_answer r) {
    printf("record %u %zu at %zu text %zu %zu note %zu %zu kind %u rule %u %u %u %u %u times %u %u %u\n",
           (unsigned)r.number, r.place, r.at, r.text_at, r.text_length, r.note_at, r.note_length,
           (unsigned)r.kind, (unsigned)r.weekday, (unsigned)r.week, (unsigned)r.month, (unsigned)r.day,
           (unsigned)r.priority, (unsigned)r.start, (unsigned)r.end, (unsigned)r.lead);
    printf("  %u-%u-%u %u-%u-%u %u-%u-%u flags %d %d %.*s\n", (unsigned)r.first_year,
           (unsigned)r.first_month, (unsigned)r.first_day, (unsigned)r.last_year, (unsigned)r.last_month,
           (unsigned)r.last_day, (unsigned)r.check_off_year, (unsigned)r.check_off_month,
           (unsigned)r.check_off_day, r.flag, r.checked_off, (int)r.text_length,
           (const char *)file + r.text_at);
}

static void print_line(apptbook_line_answer r) {
    printf("note_line %u %zu %zu %zu %.*s\n", (unsigned)r.number, r.place, r.at, r.length, (int)r.length,
           (const char *)file + r.at);
}

int main(void) {
    apptbook_lines_answer lines = apptbook_note_lines(file, sizeof file, 0);

    printf("sizes %zu %zu %zu %zu\n", sizeof(apptbook_book_answer), sizeof(apptbook_record_answer),
           sizeof lines, sizeof(apptbook_line_answer));
    printf("kinds %d %d %d %d %d %d\n", APPTBOOK_DATED, APPTBOOK_WEEKLY, APPTBOOK_MONTHLY_BY_DATE,
           APPTBOOK_MONTHLY_BY_POSITION, APPTBOOK_YEARLY, APPTBOOK_TO_DO);
    print_book(apptbook_read_book(file, sizeof file));
    print_book(apptbook_read_book(file, 30));
    print_record(apptbook_record(file, sizeof file, 0));
    print_record(apptbook_record(file, sizeof file, 1));
    printf("note_lines %u %zu %zu\n", (unsigned)lines.number, lines.place, lines.lines);
    print_line(apptbook_note_line(file, sizeof file, 0, 1));
    print_line(apptbook_note_line(file, sizeof file, 0, 2));
    return 0;
}
