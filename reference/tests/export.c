/* Exports a book as include/apptbook.h declares it, and reads the file back; header.rs knows what it prints. */
#include "apptbook.h"

#include <stdio.h>
#include <string.h>

/* The case of document 01. */
static const uint8_t book[] = {0xFF, 0xFF, 0x01, 0x00, 0x01, 0xE0, 0x01, 0x1E, 0x00, 0x01, 0x05,
                               0x00, 0x01, 0x0F, 0x00, 0x01, 0x5D, 0x03, 0x0F, 0x02, 0x58, 0x94,
                               0x02, 0x05, 0x03, 0x00, 0x00, 'D',  'e',  'p',  0x32, 0x00, 0x00};

static uint8_t file[256];

static void print_count(const char *name, apptbook_count_answer r) {
    printf("%s %u %zu %zu\n", name, (unsigned)r.number, r.place, r.count);
}

int main(void) {
    apptbook_count_answer written;
    apptbook_appointment_answer r;

    memset(file, '#', sizeof file);
    print_count("export", apptbook_export(book, 30, 4800, 30, false, file, sizeof file));
    print_count("export", apptbook_export(book, sizeof book, 4800, 367, false, file, sizeof file));
    print_count("export", apptbook_export(book, sizeof book, 4800, 30, false, file, 191));
    printf("untouched %d\n", file[0] == '#' && file[190] == '#');
    print_count("export", apptbook_export(book, sizeof book, 4800, 22, false, file, sizeof file));
    written = apptbook_export(book, sizeof book, 4800, 23, false, file, sizeof file);
    print_count("export", written);
    print_count("read_calendar", apptbook_read_calendar(file, written.count));
    r = apptbook_calendar_appointment(file, written.count, 4822, 0);
    printf("calendar_appointment %u %zu %u %u %.*s\n", (unsigned)r.number, r.place, (unsigned)r.minute,
           (unsigned)r.flags, (int)r.text_length, (const char *)file + r.text_at);
    printf("untouched %d\n", file[192] == '#' && file[255] == '#');
    return 0;
}
