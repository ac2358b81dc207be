/*
 * A host for the sanitizers: reads the files that are named, makes every call on each, looks at every byte that an
 * answer points to, and prints a line of numbers and a hash of all that it saw. Every file and every buffer is
 * allocated with just its length.
 */
#include "apptbook.h"
#include <stdio.h>
#include <stdlib.h>
#include <string.h>

enum { MOST_RECORDS = 40, LONGEST_EXPORT = 2228224 };
/* Three of them are the last of their months. */
static const uint16_t DAYS[] = {4822, 5172, 59, 43829};

static uint64_t hash;

static void see_byte(uint8_t byte) {
    hash = (hash ^ byte) * UINT64_C(1099511628211);
}

static void see(size_t number) {
    for (int shift = 0; shift < 64; shift += 8) see_byte((uint8_t)(number >> shift));
}

static void see_bytes(const uint8_t *bytes, size_t length) {
    for (size_t i = 0; i < length; i++) see_byte(bytes[i]);
}

/* Exactly so many bytes. */
static uint8_t *some(size_t length) {
    uint8_t *bytes = malloc(length);
    if (bytes == NULL && length > 0) exit(2);
    return bytes;
}

static uint8_t *copy(const uint8_t *bytes, size_t length) {
    uint8_t *new = some(length);
    if (length > 0) memcpy(new, bytes, length);
    return new;
}

static void see_record(const uint8_t *file, size_t len, size_t i) {
    apptbook_record_answer r = apptbook_record(file, len, i);
    see_bytes(file + r.text_at, r.text_length);
    see_bytes(file + r.note_at, r.note_length);
    size_t lines = apptbook_note_lines(file, len, i).lines;
    for (size_t k = 0; k < lines; k++) {
        apptbook_line_answer line = apptbook_note_line(file, len, i, k);
        see_bytes(file + line.at, line.length);
    }
    for (int d = 0; d < 4; d++) {
        see(apptbook_falls_on(file, len, i, DAYS[d], d > 0).falls);
        see(apptbook_why(file, len, i, DAYS[d], false).reason);
        see(apptbook_why(file, len, i, DAYS[d], true).reason);
        see(apptbook_next_occurrence(file, len, i, DAYS[d], d > 0).looked);
    }
}

static void see_page(const uint8_t *file, size_t len, uint16_t day, bool last) {
    size_t lines = apptbook_page_lines(file, len, day, last).count;
    for (size_t k = 0; k < lines && k < MOST_RECORDS; k++) {
        apptbook_page_line_answer line = apptbook_page_line(file, len, day, last, k);
        see(line.start);
        see(line.moved);
        see_bytes(file + line.text_at, line.text_length);
    }
    size_t length = apptbook_page_length(file, len, day, last).count;
    uint8_t *page = some(length), *shorter = some(length - 1);
    see(apptbook_print_page(file, len, day, last, page, length).count);
    see_bytes(page, length);
    see(apptbook_print_page(file, len, day, last, shorter, length - 1).number);
    free(page);
    free(shorter);
}

static void see_calendar(const uint8_t *file, size_t len) {
    size_t days = apptbook_read_calendar(file, len).count;
    for (size_t i = 0; i < days && i < MOST_RECORDS; i++) {
        apptbook_descriptor_answer d = apptbook_calendar_day(file, len, i);
        size_t count = apptbook_calendar_appointments(file, len, d.day).count;
        for (size_t k = 0; k < count && k < MOST_RECORDS; k++) {
            apptbook_appointment_answer a = apptbook_calendar_appointment(file, len, d.day, k);
            see(a.minute);
            see(a.flags);
            see_bytes(file + a.text_at, a.text_length);
        }
    }
}

static void see_export(const uint8_t *file, size_t len, bool last) {
    uint8_t *all = some(LONGEST_EXPORT);
    apptbook_count_answer answer = apptbook_export(file, len, 4822, 60, last, all, LONGEST_EXPORT);
    see(answer.number);
    if (answer.number == 0) {
        uint8_t *just = some(answer.count), *shorter = some(answer.count - 1);
        see(apptbook_export(file, len, 4822, 60, last, just, answer.count).count);
        if (memcmp(all, just, answer.count) != 0) exit(3);
        see_bytes(just, answer.count);
        see(apptbook_export(file, len, 4822, 60, last, shorter, answer.count - 1).number);
        see_calendar(just, answer.count);
        free(just);
        free(shorter);
    }
    free(all);
}

/* Writes the book again, as far as its first records, into a buffer as long as the file. */
static void see_written(const uint8_t *file, size_t len, apptbook_book_answer book) {
    uint8_t *buffer = some(len);
    apptbook_writer w = apptbook_open(book, buffer, len);
    for (size_t i = 0; i < book.records && i < MOST_RECORDS; i++) {
        apptbook_record_answer r = apptbook_record(file, len, i);
        uint8_t *text = copy(file + r.text_at, r.text_length), *note = copy(file + r.note_at, r.note_length);
        w = apptbook_add(w, buffer, len, r, text, r.text_length, note, r.note_length);
        free(text);
        free(note);
    }
    w = apptbook_close(w, buffer, len);
    see(w.number);
    see_bytes(buffer, w.used);
    free(buffer);
}

/* Takes an array of that length, or what there is of it, from the file's rest. */
static uint16_t *take_words(const uint8_t **rest, size_t *left, size_t *length) {
    if (*length > *left / 2) *length = *left / 2;
    uint16_t *words = (uint16_t *)(void *)some(2 * *length);
    for (size_t i = 0; i < *length; i++) words[i] = (uint16_t)((*rest)[2 * i] | (*rest)[2 * i + 1] << 8);
    *rest += 2 * *length;
    *left -= 2 * *length;
    return words;
}

/* The file as day chains: four lengths, four arrays, and the table. */
static apptbook_count_answer see_chains(const uint8_t *file, size_t len) {
    size_t lengths[4] = {0, 0, 0, 0}, left = len;
    const uint8_t *rest = file;
    uint16_t *arrays[4];
    if (len >= 8) {
        for (int i = 0; i < 4; i++) lengths[i] = (size_t)file[2 * i] | (size_t)file[2 * i + 1] << 8;
        rest += 8;
        left -= 8;
    }
    for (int i = 0; i < 4; i++) arrays[i] = take_words(&rest, &left, &lengths[i]);
    uint8_t *table = copy(rest, left);
    apptbook_count_answer answer = apptbook_check_chains(table, left, arrays[0], lengths[0], arrays[1], lengths[1],
                                                         arrays[2], lengths[2], arrays[3], lengths[3]);
    for (int i = 0; i < 4; i++) free(arrays[i]);
    free(table);
    return answer;
}

/* The numbers that all calls give for it, whatever it is. */
static void see_numbers(const uint8_t *file, size_t len) {
    uint8_t byte = 0;
    see(apptbook_default_last());
    see(apptbook_record(file, len, SIZE_MAX).number);
    see(apptbook_note_lines(file, len, 0).number);
    see(apptbook_note_line(file, len, 0, SIZE_MAX).number);
    see(apptbook_falls_on(file, len, 0, 43830, false).number);
    see(apptbook_why(file, len, 0, 43830, false).number);
    see(apptbook_why(file, len, SIZE_MAX, 43829, true).number);
    see(apptbook_next_occurrence(file, len, 0, 65535, false).number);
    see(apptbook_page_lines(file, len, 43830, true).number);
    see(apptbook_page_line(file, len, 0, true, SIZE_MAX).number);
    see(apptbook_page_length(file, len, 43830, true).number);
    see(apptbook_print_page(file, len, 4822, true, &byte, 1).number);
    see(apptbook_calendar_day(file, len, SIZE_MAX).number);
    see(apptbook_calendar_appointments(file, len, 43830).number);
    see(apptbook_calendar_appointment(file, len, 0, SIZE_MAX).number);
    see(apptbook_export(file, len, 43829, 2, true, &byte, 1).number);
    see(byte);
}

static void look(const uint8_t *file, size_t len) {
    hash = UINT64_C(14695981039346656037);
    apptbook_book_answer book = apptbook_read_book(file, len);
    apptbook_count_answer calendar = apptbook_read_calendar(file, len);
    apptbook_count_answer chains = see_chains(file, len);
    see_numbers(file, len);
    if (book.number == 0) {
        for (size_t i = 0; i < book.records && i < MOST_RECORDS; i++) see_record(file, len, i);
        for (int d = 0; d < 4; d++) {
            see_page(file, len, DAYS[d], false);
            see_page(file, len, DAYS[d], true);
        }
        see_export(file, len, false);
        see_export(file, len, true);
        see_written(file, len, book);
    }
    if (calendar.number == 0) see_calendar(file, len);
    printf("%u %zu %zu ", (unsigned)book.number, book.place, book.records);
    printf("%u %zu %zu ", (unsigned)calendar.number, calendar.place, calendar.count);
    printf("%u %zu %zu %016llx\n", (unsigned)chains.number, chains.place, chains.count, (unsigned long long)hash);
}

int main(int argc, char **argv) {
    look(NULL, 0);
    for (int i = 1; i < argc; i++) {
        FILE *in = fopen(argv[i], "rb");
        if (in == NULL || fseek(in, 0, SEEK_END) != 0) return 2;
        size_t len = (size_t)ftell(in);
        rewind(in);
        uint8_t *file = some(len);
        if (fread(file, 1, len, in) != len) return 2;
        fclose(in);
        look(file, len);
        free(file);
    }
    return 0;
}
