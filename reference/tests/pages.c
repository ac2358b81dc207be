/* Calls everything that include/apptbook.h declares about pages; header.rs knows what it prints. */
#include "apptbook.h"

#include <stdio.h>
#include <string.h>

/* The case of document 01, and on the 31st of each month at 0:00 a record without a text. */
static const uint8_t file[] = {0xFF, 0xFF, 0x01, 0x00, 0x01, 0xE0, 0x01, 0x1E, 0x00, 0x01, 0x05, 0x00, 0x01,
                               0x0F, 0x00, 0x01, 0x5D, 0x03, 0x0F, 0x02, 0x58, 0x94, 0x02, 0x05, 0x03, 0x00,
                               0x00, 'D',  'e',  'p',  0x03, 0x10, 0x00, 0x00, 0x1F, 0x00, 0x00, 0x5D, 0x01,
                               0x01, 0x00, 0x00, 0x5D, 0x0C, 0x1F, 0x00, 0x00, 0x00, 0x00, 0x32, 0x00, 0x00};

static void print_falls(apptbook_falls_answer r) {
    printf("falls_on %u %zu %u\n", (unsigned)r.number, r.place, (unsigned)r.falls);
}

static void print_why(apptbook_reason_answer r) {
    printf("why %u %zu %u\n", (unsigned)r.number, r.place, (unsigned)r.reason);
}

static void print_next(apptbook_occurrence_answer r) {
    printf("next_occurrence %u %zu %u %u %d\n", (unsigned)r.number, r.place, (unsigned)r.looked,
           (unsigned)r.day, r.found);
}

static void print_count(const char *name, apptbook_count_answer r) {
    printf("%s %u %zu %zu\n", name, (unsigned)r.number, r.place, r.count);
}

static void print_line(apptbook_page_line_answer r) {
    printf("page_line %u %zu record %zu text %zu %zu times %u %u alarm %d moved %d %.*s\n", (unsigned)r.number,
           r.place, r.record, r.text_at, r.text_length, (unsigned)r.start, (unsigned)r.end, r.alarm, r.moved,
           (int)r.text_length, (const char *)file + r.text_at);
}

int main(void) {
    uint8_t page[64];
    apptbook_count_answer written;

    printf("sizes %zu %zu %zu %zu %zu\n", sizeof(apptbook_falls_answer), sizeof(apptbook_reason_answer),
           sizeof(apptbook_occurrence_answer), sizeof written, sizeof(apptbook_page_line_answer));
    printf("falls %d %d %d\n", APPTBOOK_FALLS_NOT, APPTBOOK_FALLS_ON_ITS_DAY, APPTBOOK_FALLS_MOVED);
    printf("reasons %d %d %d %d %d", APPTBOOK_OWN_DAY, APPTBOOK_MOVED, APPTBOOK_IS_TO_DO, APPTBOOK_BEFORE_START,
           APPTBOOK_AFTER_LAST_DAY);
    printf(" %d %d %d %d %d\n", APPTBOOK_WRONG_MONTH, APPTBOOK_MONTH_TOO_SHORT, APPTBOOK_WRONG_DAY,
           APPTBOOK_WRONG_WEEKDAY, APPTBOOK_WRONG_WEEK);
    printf("default_last %d\n", apptbook_default_last());
    print_falls(apptbook_falls_on(file, sizeof file, 0, 4822, false));
    print_falls(apptbook_falls_on(file, sizeof file, 1, 4838, true));
    print_falls(apptbook_falls_on(file, sizeof file, 1, 4868, false));
    print_falls(apptbook_falls_on(file, sizeof file, 1, 4868, true));
    print_falls(apptbook_falls_on(file, sizeof file, 1, 4868, apptbook_default_last()));
    print_falls(apptbook_falls_on(file, sizeof file, 2, 4868, true));
    print_why(apptbook_why(file, sizeof file, 0, 4822, false));
    print_why(apptbook_why(file, sizeof file, 0, 4823, true));
    print_why(apptbook_why(file, sizeof file, 1, 4867, true));
    print_why(apptbook_why(file, sizeof file, 1, 4868, false));
    print_why(apptbook_why(file, sizeof file, 1, 4868, true));
    print_why(apptbook_why(file, sizeof file, 2, 4868, true));
    print_why(apptbook_why(file, sizeof file, 2, 43830, true));
    print_why(apptbook_why(file, 49, 2, 43830, true));
    print_next(apptbook_next_occurrence(file, sizeof file, 1, 4839, false));
    print_next(apptbook_next_occurrence(file, sizeof file, 1, 4839, true));
    print_next(apptbook_next_occurrence(file, sizeof file, 0, 4823, true));
    print_next(apptbook_next_occurrence(file, sizeof file, 0, 43830, true));
    print_count("page_lines", apptbook_page_lines(file, sizeof file, 4822, false));
    print_count("page_lines", apptbook_page_lines(file, 49, 4822, false));
    print_line(apptbook_page_line(file, sizeof file, 4822, false, 0));
    print_line(apptbook_page_line(file, sizeof file, 4822, false, 1));
    print_line(apptbook_page_line(file, sizeof file, 4868, true, 0));
    print_count("page_length", apptbook_page_length(file, sizeof file, 4838, false));
    memset(page, '#', sizeof page);
    print_count("print_page", apptbook_print_page(file, sizeof file, 4838, false, page, 29));
    printf("untouched %d\n", page[0] == '#');
    written = apptbook_print_page(file, sizeof file, 4838, false, page, sizeof page);
    print_count("print_page", written);
    printf("%.*s%c\n", (int)written.count, (const char *)page, page[written.count]);
    print_count("page_length", apptbook_page_length(file, sizeof file, 4868, true));
    written = apptbook_print_page(file, sizeof file, 4868, true, page, sizeof page);
    printf("%.*s", (int)written.count, (const char *)page);
    return 0;
}
