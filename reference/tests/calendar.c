/* Calls everything that include/apptbook.h declares about Calendar files; header.rs knows what it prints. */
#include "apptbook.h"

#include <stdio.h>
#include <string.h>

/* The case of document 01: head, table and block, each filled up with zeros. */
static const uint8_t head[] = {0xB5, 0xA2, 0xB0, 0xB3, 0xB3, 0xB0, 0xA2, 0xB5, 0x01, 0x00, 0x05,
                               0x00, 0x01, 0x00, 0x01, 0x00, 0x1E, 0x00, 0x01, 0x00, 0xE0, 0x01};
static const uint8_t table[] = {0xD6, 0x12, 0x00, 0x00, 0x01, 0x00, 0x02, 0x00, 0xFF, 0x0F, 0xFF, 0x0F};
static const uint8_t block[] = {0x00, 0x00, 0xD6, 0x12, 0x01, 0x00, 0x00, 0x00, 0x08,
                                0x00, 0x08, 0x01, 0x58, 0x02, 'D',  'e',  'p',  0x00};

static uint8_t file[192];

static void print_count(const char *name, apptbook_count_answer r) {
    printf("%s %u %zu %zu\n", name, (unsigned)r.number, r.place, r.count);
}

static void print_day(apptbook_descriptor_answer r) {
    printf("calendar_day %u %zu %u %u\n", (unsigned)r.number, r.place, (unsigned)r.day, (unsigned)r.offset);
}

static void print_appointment(apptbook_appointment_answer r) {
    printf("calendar_appointment %u %zu text %zu %zu minute %u flags %u %.*s\n", (unsigned)r.number, r.place,
           r.text_at, r.text_length, (unsigned)r.minute, (unsigned)r.flags, (int)r.text_length,
           (const char *)file + r.text_at);
}

int main(void) {
    memcpy(file, head, sizeof head);
    memcpy(file + 64, table, sizeof table);
    memcpy(file + 128, block, sizeof block);

    printf("sizes %zu %zu\n", sizeof(apptbook_descriptor_answer), sizeof(apptbook_appointment_answer));
    printf("flags %d %d\n", APPTBOOK_FLAG_ALARM, APPTBOOK_FLAG_SPECIAL_TIME);
    print_count("read_calendar", apptbook_read_calendar(file, sizeof file));
    print_count("read_calendar", apptbook_read_calendar(file, 63));
    print_count("read_calendar", apptbook_read_calendar(file, 75));
    print_count("read_calendar", apptbook_read_calendar(file, 145));
    print_day(apptbook_calendar_day(file, sizeof file, 0));
    print_day(apptbook_calendar_day(file, sizeof file, 1));
    print_count("calendar_appointments", apptbook_calendar_appointments(file, sizeof file, 4822));
    print_count("calendar_appointments", apptbook_calendar_appointments(file, sizeof file, 4823));
    print_count("calendar_appointments", apptbook_calendar_appointments(file, sizeof file, 43830));
    print_appointment(apptbook_calendar_appointment(file, sizeof file, 4822, 0));
    print_appointment(apptbook_calendar_appointment(file, sizeof file, 4822, 1));
    print_appointment(apptbook_calendar_appointment(file, sizeof file, 43830, 1));
    return 0;
}
