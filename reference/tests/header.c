/* Calls everything that include/apptbook.h declares about days; header.rs knows what it prints. */
#include "apptbook.h"

#include <stdio.h>

#if APPTBOOK_VERSION < 5
#error "a version that the preprocessor can compare"
#endif

static void print_day(const char *name, apptbook_day_answer r) {
    printf("%s %u %zu %u\n", name, (unsigned)r.number, r.place, (unsigned)r.day);
}

static void print_facts(const char *name, apptbook_facts_answer r) {
    printf("%s %u %zu %u %u-%u-%u %u %u\n", name, (unsigned)r.number, r.place, (unsigned)r.calendar_day,
           (unsigned)r.year, (unsigned)r.month, (unsigned)r.day, (unsigned)r.weekday, (unsigned)r.month_length);
}

static void print_refusals(void) {
    printf("refusals %d", APPTBOOK_ACCEPTED);
    printf(" %d %d %d %d %d", APPTBOOK_BOOK_TOO_LONG, APPTBOOK_NOT_A_BOOK, APPTBOOK_BAD_SETTINGS,
           APPTBOOK_CUT_SHORT, APPTBOOK_UNKNOWN_TYPE);
    printf(" %d %d %d %d %d", APPTBOOK_BAD_LENGTH, APPTBOOK_BAD_FIELD, APPTBOOK_BAD_TEXT,
           APPTBOOK_AFTER_END, APPTBOOK_NO_SUCH_NUMBER);
    printf(" %d %d %d %d", APPTBOOK_OUT_OF_RANGE, APPTBOOK_NO_ROOM, APPTBOOK_TOO_MANY_BLOCKS,
           APPTBOOK_NOT_OPEN);
    printf(" %d %d %d %d %d", APPTBOOK_CALENDAR_TOO_LONG, APPTBOOK_NOT_A_CALENDAR, APPTBOOK_BAD_TABLE,
           APPTBOOK_BAD_BLOCK, APPTBOOK_BAD_APPOINTMENT);
    printf(" %d %d %d %d\n", APPTBOOK_BAD_ARRAYS, APPTBOOK_BAD_DAY_TABLE, APPTBOOK_BAD_CHAIN,
           APPTBOOK_BAD_CHAIN_ORDER);
}

int main(void) {
    apptbook_length_answer length = apptbook_month_length(2000, 2);
    apptbook_date_answer date = apptbook_date_of_day(4822);
    apptbook_weekday_answer weekday = apptbook_weekday(4822);

    printf("version %d\n", APPTBOOK_VERSION);
    print_refusals();
    printf("sizes %zu %zu %zu %zu %zu\n", sizeof length, sizeof(apptbook_day_answer), sizeof date,
           sizeof weekday, sizeof(apptbook_facts_answer));
    printf("month_length %u %zu %u\n", (unsigned)length.number, length.place, (unsigned)length.length);
    printf("is_real_date %d %d\n", apptbook_is_real_date(1980, 2, 29), apptbook_is_real_date(1993, 2, 29));
    print_day("day_of_date", apptbook_day_of_date(1993, 3, 15));
    print_day("day_of_date", apptbook_day_of_date(1993, 2, 29));
    printf("date_of_day %u %zu %u-%u-%u\n", (unsigned)date.number, date.place, (unsigned)date.year,
           (unsigned)date.month, (unsigned)date.day);
    printf("weekday %u %zu %u\n", (unsigned)weekday.number, weekday.place, (unsigned)weekday.weekday);
    print_facts("day_facts", apptbook_day_facts(4822));
    print_facts("next_day", apptbook_next_day(apptbook_day_facts(7363)));
    print_facts("next_day", apptbook_next_day(apptbook_day_facts(43829)));
    print_day("calendar_of_psion", apptbook_calendar_of_psion(3652));
    print_day("calendar_of_psion", apptbook_calendar_of_psion(3651));
    print_day("psion_of_calendar", apptbook_psion_of_calendar(25567));
    return 0;
}
