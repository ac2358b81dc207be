/* Calls everything that include/apptbook.h declares about writing; header.rs knows what it prints. */
#include "apptbook.h"

#include <stdio.h>
#include <string.h>

/* The case of document 01. */
static const uint8_t file[] = {0xFF, 0xFF, 0x01, 0x00, 0x01, 0xE0, 0x01, 0x1E, 0x00, 0x01, 0x05,
                               0x00, 0x01, 0x0F, 0x00, 0x01, 0x5D, 0x03, 0x0F, 0x02, 0x58, 0x94,
                               0x02, 0x05, 0x03, 0x00, 0x00, 'D',  'e',  'p',  0x32, 0x00, 0x00};

static uint8_t buffer[sizeof file];

static apptbook_writer print(const char *name, apptbook_writer w) {
    printf("%s %u %zu %zu %d\n", name, (unsigned)w.number, w.place, w.used, w.closed);
    return w;
}

int main(void) {
    apptbook_book_answer settings = apptbook_read_book(file, sizeof file);
    apptbook_record_answer record = apptbook_record(file, sizeof file, 0);
    const uint8_t *text = file + record.text_at;
    const uint8_t *note = file + record.note_at;
    apptbook_writer w;

    printf("sizes %zu\n", sizeof w);
    print("open", apptbook_open(settings, buffer, 14));
    w = print("open", apptbook_open(settings, buffer, sizeof buffer));
    print("add", apptbook_add(w, buffer, sizeof buffer - 1, record, text, record.text_length, note, 0));
    w = print("add", apptbook_add(w, buffer, sizeof buffer, record, text, record.text_length, note, 0));
    w = print("close", apptbook_close(w, buffer, sizeof buffer));
    print("add", apptbook_add(w, buffer, sizeof buffer, record, text, record.text_length, note, 0));
    w = print("close", apptbook_close(w, buffer, sizeof buffer));
    printf("same %d\n", memcmp(buffer, file, sizeof file) == 0);
    return 0;
}
