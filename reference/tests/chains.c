/* Calls what include/apptbook.h declares about day chains; header.rs knows what it prints. */
#include "apptbook.h"

#include <stdio.h>

/* Record 1 leads to 0 on the first day, 4 to 2 and 3 on the second. */
static const uint8_t table[] = {93, 3, 22, 1, 0, 93, 3, 28, 4, 0, 0, 0, 0, 255, 255};
static const uint16_t previous[] = {1, 65535, 4, 2, 65535};
static const uint16_t next[] = {65535, 0, 3, 65535, 2};
static const uint16_t kinds[] = {1, 0, 1, 2, 1};
static const uint16_t minutes[] = {480, 0, 600, 0, 540};

static void print(apptbook_count_answer r) {
    printf("check_chains %u %zu %zu\n", (unsigned)r.number, r.place, r.count);
}

/* With so many bytes, and so many of each array. */
static void check(size_t bytes, size_t records) {
    print(apptbook_check_chains(table, bytes, previous, records, next, records, kinds, records, minutes, records));
}

int main(void) {
    check(15, 5);
    check(14, 5);
    check(10, 5);
    check(0, 5);
    check(15, 4);
    check(15, 1);
    print(apptbook_check_chains(table, 15, previous, 4, next, 5, kinds, 5, minutes, 5));
    print(apptbook_check_chains(table, 15, previous, 5, next, 4, kinds, 5, minutes, 5));
    print(apptbook_check_chains(table, 15, previous, 5, next, 5, kinds, 4, minutes, 5));
    print(apptbook_check_chains(table, 15, previous, 5, next, 5, kinds, 5, minutes, 4));
    print(apptbook_check_chains(table, 15, next, 5, previous, 5, kinds, 5, minutes, 5));
    print(apptbook_check_chains(table, 15, previous, 5, kinds, 5, next, 5, minutes, 5));
    print(apptbook_check_chains(table, 15, previous, 5, next, 5, minutes, 5, kinds, 5));
    print(apptbook_check_chains(table + 10, 5, NULL, 0, NULL, 0, NULL, 0, NULL, 0));
    print(apptbook_check_chains(NULL, 0, NULL, 0, NULL, 0, NULL, 0, NULL, 0));
    return 0;
}
