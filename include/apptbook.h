/*
 * apptbook: the HP 95LX Appointment Book, its days, the Windows Calendar file, and HP 200LX day chains.
 *
 * C header of the proved library libcabi.a (x86-64). No call keeps anything between calls or allocates
 * memory, and every argument gets an answer. Bytes are lent as a pointer and a number, arrays of 16-bit numbers
 * likewise; all that is asked of a caller is that so many are there, and that a buffer to be written to overlaps
 * no other lent bytes. Whatever they are, they get an answer too. A call reads a file's bytes and changes none.
 * Only a buffer that is lent to be written into is changed, as said at the call. A call takes up to 90 kB of
 * stack; 128 kB are enough for the caller too.
 *
 * An answer is a struct by value. It begins with
 *   number   APPTBOOK_ACCEPTED (0), or the number of the refusal;
 *   place    the byte of the file that the refusal is about, 0 where no file byte is meant; from number 30 on
 *            the entry or the record, as said at the call.
 * On a refusal all its other fields are 0 or false, except in a writing state, which comes back as it was.
 */
#ifndef APPTBOOK_H
#define APPTBOOK_H

#include <stdbool.h>
#include <stddef.h>
#include <stdint.h>

/*
 * Of this header and its library: raised whenever a call is added or changed, so that a caller can compare it by #if.
 * 1: the first calls. 2: apptbook_check_chains. 3: apptbook_default_last: who has no wish gets last, where it was skip.
 * 4: apptbook_falls_on and apptbook_page_line tell when a showing is moved, and printed pages mark it. 5: apptbook_why.
 */
#define APPTBOOK_VERSION 5

#ifdef __cplusplus
extern "C" {
#endif

/* The numbers given on refusal. */
enum {
    APPTBOOK_ACCEPTED = 0,            /* not refused */

    /* Books, days and writing. */
    APPTBOOK_BOOK_TOO_LONG = 1,       /* book over 65,535 bytes */
    APPTBOOK_NOT_A_BOOK = 2,          /* first five bytes missing or different */
    APPTBOOK_BAD_SETTINGS = 3,        /* settings missing or out of range */
    APPTBOOK_CUT_SHORT = 4,           /* fewer than three head bytes, or body past the file's end */
    APPTBOOK_UNKNOWN_TYPE = 5,        /* type not 1..6 or 50, or an end record that is not empty */
    APPTBOOK_BAD_LENGTH = 6,          /* a record's length too small for what it holds, or text over 27 bytes */
    APPTBOOK_BAD_FIELD = 7,           /* a field outside its range */
    APPTBOOK_BAD_TEXT = 8,            /* text or note against its rule */
    APPTBOOK_AFTER_END = 9,           /* over 127 bytes after the end record, or one that is not 1Ah */
    APPTBOOK_NO_SUCH_NUMBER = 10,     /* no record, line, descriptor or appointment of that number */
    APPTBOOK_OUT_OF_RANGE = 11,       /* day, date or span handed over outside its range */
    APPTBOOK_NO_ROOM = 12,            /* lent buffer shorter than what is to be written */
    APPTBOOK_TOO_MANY_BLOCKS = 13,    /* a day's block would start at block 32,768 or later */
    APPTBOOK_NOT_OPEN = 14,           /* writing state not opened or already closed */

    /* Calendar files. */
    APPTBOOK_CALENDAR_TOO_LONG = 20,  /* Calendar file over 2,228,224 bytes */
    APPTBOOK_NOT_A_CALENDAR = 21,     /* under 64 bytes or wrong eight bytes */
    APPTBOOK_BAD_TABLE = 22,          /* table past the end, day over 43,829, or days not strictly rising */
    APPTBOOK_BAD_BLOCK = 23,          /* block inside head or table or past the end, or its first words wrong */
    APPTBOOK_BAD_APPOINTMENT = 24,    /* an appointment's size, flags, minute or closing zero wrong */

    /* HP 200LX day chains. */
    APPTBOOK_BAD_ARRAYS = 30,         /* arrays not equally long, or over 4,096 */
    APPTBOOK_BAD_DAY_TABLE = 31,      /* an entry cut short, not after the date before it, or 65,535 misplaced */
    APPTBOOK_BAD_CHAIN = 32,          /* a head or a next that leads nowhere, or into another chain */
    APPTBOOK_BAD_CHAIN_ORDER = 33     /* a record's kind, minute or order in its chain wrong */
};

/*
 * Days.
 *
 * A Calendar day counts days from 1 January 1980 = 0 to 31 December 2099 = 43,829.
 * A Psion day counts days from 1 January 1970 = 0.
 * A year is the full year (1993), a month 1 to 12, a day of the month 1 to 31.
 * A weekday is 1 = Sunday, 2 = Monday, to 7 = Saturday.
 *
 * The only refusal here is APPTBOOK_OUT_OF_RANGE, with place 0.
 */

typedef struct apptbook_length_answer {
    uint32_t number;
    size_t place;
    uint16_t length; /* days in the month, 28 to 31 */
} apptbook_length_answer;

typedef struct apptbook_day_answer {
    uint32_t number;
    size_t place;
    uint16_t day; /* a Calendar day or a Psion day, as the call says */
} apptbook_day_answer;

typedef struct apptbook_date_answer {
    uint32_t number;
    size_t place;
    uint16_t year;
    uint16_t month;
    uint16_t day; /* of the month */
} apptbook_date_answer;

typedef struct apptbook_weekday_answer {
    uint32_t number;
    size_t place;
    uint16_t weekday;
} apptbook_weekday_answer;

/* A day and all that is known of it. */
typedef struct apptbook_facts_answer {
    uint32_t number;
    size_t place;
    uint16_t calendar_day;
    uint16_t year;
    uint16_t month;
    uint16_t day; /* of the month */
    uint16_t weekday;
    uint16_t month_length; /* days in that month */
} apptbook_facts_answer;

/* The days in a month. Refused when the year is not 1980 to 2099 or the month not 1 to 12. */
apptbook_length_answer apptbook_month_length(uint16_t year, uint16_t month);

/* Whether this is a real Gregorian date from 1980 to 2099. */
bool apptbook_is_real_date(uint16_t year, uint16_t month, uint16_t day);

/* The Calendar day of a date. Refused when apptbook_is_real_date says false. */
apptbook_day_answer apptbook_day_of_date(uint16_t year, uint16_t month, uint16_t day);

/* The date of a Calendar day. Refused over 43,829. */
apptbook_date_answer apptbook_date_of_day(uint16_t day);

/* The weekday of a Calendar day. Refused over 43,829. */
apptbook_weekday_answer apptbook_weekday(uint16_t day);

/* All that is known of a Calendar day. Refused over 43,829. */
apptbook_facts_answer apptbook_day_facts(uint16_t day);

/*
 * The facts of the day after: the quick way to go through many days, from apptbook_day_facts on.
 * number and place of what is handed over are ignored. Refused when calendar_day is 43,829 or more
 * or year over 2099. Facts that belong to no day are stepped all the same: calendar_day and weekday
 * by one (a weekday from 7 on becomes 1); day by one where it is below month_length, else to day 1
 * of the next month (after a month from 12 on: January of the next year) with that month's length.
 */
apptbook_facts_answer apptbook_next_day(apptbook_facts_answer facts);

/* The Calendar day of a Psion day. Refused when that is not 3,652 to 29,219 (1980 to 2049). */
apptbook_day_answer apptbook_calendar_of_psion(uint16_t day);

/* The Psion day of a Calendar day. Refused over 25,567 (31 December 2049). */
apptbook_day_answer apptbook_psion_of_calendar(uint16_t day);

/*
 * The book.
 *
 * Each call judges the whole file first and refuses it with APPTBOOK_BOOK_TOO_LONG (1) to
 * APPTBOOK_AFTER_END (9). Of several faults the first in this order counts: 1, 2, 3; then record by
 * record 4 for the three head bytes, 5, 4 for the body, 6, 7, 8; after the end record 9. The place is 0
 * for 1 and 2, 5 for 3, and the record's type byte for 4 to 8; for 9 it is the first byte after the end
 * record where more than 127 follow it, else the first of them that is not 1Ah. A file that stops
 * without an end record is 4 at the place behind its last record.
 *
 * Only then comes APPTBOOK_NO_SUCH_NUMBER (10), with place 0.
 *
 * Up to 127 bytes 1Ah after the end record, with which a modem fills up its last block, are accepted.
 * They count in the size that 1 limits, and no other answer depends on them.
 *
 * Records count from 0, to-dos too, the end record not. Lines of a note count from 0.
 * Places and lengths of texts, notes and lines are in bytes of the file that was lent; texts and lines
 * hold no zero byte and end without one.
 * Minutes count from midnight, 0 to 1,439. Years are full years (1993). Dates are real, 1980 to 2099.
 */

/* The kinds of records: their type bytes. */
enum {
    APPTBOOK_DATED = 1,
    APPTBOOK_WEEKLY = 2,
    APPTBOOK_MONTHLY_BY_DATE = 3,
    APPTBOOK_MONTHLY_BY_POSITION = 4,
    APPTBOOK_YEARLY = 5,
    APPTBOOK_TO_DO = 6
};

typedef struct apptbook_book_answer {
    uint32_t number;
    size_t place;
    size_t records;       /* how many there are */
    uint16_t start;       /* display start, a minute */
    uint16_t granularity; /* of the display, in minutes, 1 to 720 */
    uint16_t lead;        /* default lead time in minutes, 0 to 30 */
    bool alarm;           /* alarm on */
    bool carry_forward;   /* to-dos carry forward by default */
} apptbook_book_answer;

/* One record. Fields that its kind does not have are 0 or false. */
typedef struct apptbook_record_answer {
    uint32_t number;
    size_t place;
    size_t at;                /* place of the record: its type byte */
    size_t text_at;           /* place of the text */
    size_t text_length;       /* 0 to 27 */
    size_t note_at;           /* place of the note, text_at + text_length also when there is none */
    size_t note_length;       /* 0 to 440, zero bytes included */
    uint16_t kind;            /* APPTBOOK_DATED to APPTBOOK_TO_DO */
    uint16_t weekday;         /* weekly, monthly by position: 1 = Sunday to 7 = Saturday */
    uint16_t week;            /* monthly by position: 1 to 5 */
    uint16_t month;           /* yearly: 1 to 12 */
    uint16_t day;             /* monthly by date, yearly: day of the month, 1 to 31 */
    uint16_t priority;        /* to-do: 1 to 9 */
    uint16_t start;           /* all but to-dos: start minute */
    uint16_t end;             /* all but to-dos: end minute, not before the start */
    uint16_t lead;            /* all but to-dos: lead time in minutes, 0 to 30 */
    uint16_t first_year;      /* dated: its date; to-do: start date; others: first date of the span */
    uint16_t first_month;
    uint16_t first_day;
    uint16_t last_year;       /* weekly to yearly: last date of the span, not before the first */
    uint16_t last_month;
    uint16_t last_day;
    uint16_t check_off_year;  /* to-do that is checked off: when that was done */
    uint16_t check_off_month;
    uint16_t check_off_day;
    bool flag;                /* alarm on; to-do: carry forward */
    bool checked_off;         /* to-do: checked off */
} apptbook_record_answer;

typedef struct apptbook_lines_answer {
    uint32_t number;
    size_t place;
    size_t lines; /* 0 to 11 */
} apptbook_lines_answer;

typedef struct apptbook_line_answer {
    uint32_t number;
    size_t place;
    size_t at;     /* place of the line */
    size_t length; /* 0 to 39, without the zero byte that may end it */
} apptbook_line_answer;

/* The settings and the number of records. */
apptbook_book_answer apptbook_read_book(const uint8_t *file, size_t len);

/* The record of that number. Refused with 10 when there are not so many. */
apptbook_record_answer apptbook_record(const uint8_t *file, size_t len, size_t record);

/* How many lines the record's note has. Refused with 10 when there is no such record. */
apptbook_lines_answer apptbook_note_lines(const uint8_t *file, size_t len, size_t record);

/* A line of the record's note. Refused with 10 when there is no such record or no such line. */
apptbook_line_answer apptbook_note_line(const uint8_t *file, size_t len, size_t record, size_t line);

/*
 * Writing a book.
 *
 * apptbook_open begins a book in a lent buffer, each apptbook_add adds a record behind the bytes used, and
 * apptbook_close ends the book: the file is then the buffer's first `used` bytes. The state goes in and
 * comes back with each call; nothing else is kept, so lend the same buffer, untouched, and hand on each
 * state that came back:
 *
 *   apptbook_writer w = apptbook_open(settings, buffer, len);
 *   w = apptbook_add(w, buffer, len, record, text, text_len, note, note_len);
 *   w = apptbook_close(w, buffer, len);
 *
 * The refusals are APPTBOOK_BAD_SETTINGS (3), APPTBOOK_BAD_LENGTH (6), APPTBOOK_BAD_FIELD (7),
 * APPTBOOK_BAD_TEXT (8), APPTBOOK_NO_ROOM (12) and APPTBOOK_NOT_OPEN (14), all with place 0; of several
 * faults the first in the order named at the call counts. On a refusal no byte of the buffer is changed and
 * used and closed come back as they went in, so a later call may go on from there: look at number after
 * each call. Otherwise only the bytes that the call writes are changed.
 *
 * A book has at most 65,535 bytes, however long the buffer is. Each call but the last leaves room for the
 * end record's three bytes.
 *
 * Neither text nor note may lie in the buffer: what is to be taken from there must be copied first.
 */

/* The writing state: it goes in, where number and place are ignored, and it is the answer. */
typedef struct apptbook_writer {
    uint32_t number;
    size_t place; /* always 0 */
    size_t used;  /* bytes of the buffer used so far; once closed, the file's length */
    bool closed;
} apptbook_writer;

/*
 * Writes the identification and the settings, 12 bytes; used is then 12. Bytes 12 on stay as they were.
 * Of the settings start, granularity, lead, alarm and carry_forward are used and all else is ignored, so
 * what apptbook_read_book gave can be handed on as it is.
 *
 * Refused, with used 0 and not closed:
 *   3   a setting outside its range;
 *   12  the buffer has fewer than 15 bytes.
 */
apptbook_writer apptbook_open(apptbook_book_answer settings, uint8_t *buffer, size_t len);

/*
 * Adds a record: its three head bytes, its fixed fields, text and note; no padding, and 0 in the state bits
 * that have no name. Of the record kind and the fields of that kind are used, and all else is ignored
 * (number, the places and lengths, fields that the kind does not have), so what apptbook_record gave can be
 * handed on as it is, together with text and note. Of a to-do that is not checked off the check-off date is
 * ignored.
 *
 * Refused, in this order:
 *   14  used is below 12, or the state is closed;
 *   6   the text has more than 27 bytes;
 *   7   kind is not 1 to 6, or a field is outside its range;
 *   8   the text holds a zero byte; the note has more than 440 bytes, more than 11 lines or a line of more
 *       than 39 bytes (a zero byte ends a line, bytes after the last zero form one more);
 *   12  used + the record's bytes + 3 is more than len or 65,535. No sum wraps around.
 * A state with used of 12 or more is taken as it is, even if no call gave it.
 */
apptbook_writer apptbook_add(apptbook_writer state, uint8_t *buffer, size_t len, apptbook_record_answer record,
                             const uint8_t *text, size_t text_len, const uint8_t *note, size_t note_len);

/*
 * Ends the book by its end record, 32 00 00 in hexadecimal; used grows by 3 and the state is closed. No
 * filling follows.
 *
 * Refused, in this order:
 *   14  used is below 12, or the state is closed;
 *   12  used + 3 is more than len or 65,535.
 */
apptbook_writer apptbook_close(apptbook_writer state, uint8_t *buffer, size_t len);

/*
 * Day pages and the next occurrence.
 *
 * A dated record falls on its date, a to-do on no day. The others fall on days from their first to their
 * last date, and of these
 *   weekly ones               on their weekday;
 *   monthly ones by position  on their weekday when (day of the month - 1) / 7 + 1, rounded down, is their
 *                             week; week 5 is never the last one of a month that has only four;
 *   monthly ones by date      on their day of the month;
 *   yearly ones               on their month and day.
 * Where a month does not have the day of one of the last two kinds, the short-month choice decides, handed
 * over as `last`: false (skip) shows the record on no day of that month, true (last) on the month's last day.
 * It plays no other part. Who has no wish hands over apptbook_default_last(), which is true.
 *
 * A record that falls on a month's last day because its own day is missing there is moved. So only the last two
 * kinds can be moved, and under skip nothing is. Pages, the search and the export show what is moved as they
 * show all else; page lines and printed pages mark it.
 *
 * A page lists the records that fall on a day by start minute, and by their numbers where that is equal. Its
 * lines count from 0.
 *
 * Each call judges the whole file first and refuses it with 1 to 9, as said above. Then come, each with
 * place 0 and in this order: APPTBOOK_OUT_OF_RANGE (11) for a day over 43,829, APPTBOOK_NO_SUCH_NUMBER (10),
 * APPTBOOK_NO_ROOM (12).
 */

/* Whether a record falls on a day. */
enum {
    APPTBOOK_FALLS_NOT = 0,
    APPTBOOK_FALLS_ON_ITS_DAY = 1,
    APPTBOOK_FALLS_MOVED = 2 /* on the month's last day, since its own day is missing there */
};

/* Why a record is on a day (1 and 2), or why it is not. Where several of the others hold, the first here is given. */
enum {
    APPTBOOK_OWN_DAY = 1,         /* it is here: this is its own day */
    APPTBOOK_MOVED = 2,           /* it is here: this month does not have its own day */
    APPTBOOK_IS_TO_DO = 3,        /* to-dos are on no page */
    APPTBOOK_BEFORE_START = 4,    /* it begins later; a dated record: its date is later */
    APPTBOOK_AFTER_LAST_DAY = 5,  /* it has ended; a dated record: its date was earlier */
    APPTBOOK_WRONG_MONTH = 6,     /* it comes in another month of the year */
    APPTBOOK_MONTH_TOO_SHORT = 7, /* last would show it here: this month does not have its own day */
    APPTBOOK_WRONG_DAY = 8,       /* it comes on another day of the month */
    APPTBOOK_WRONG_WEEKDAY = 9,   /* it comes on another weekday */
    APPTBOOK_WRONG_WEEK = 10      /* it comes on this weekday, but in another week of the month */
};

typedef struct apptbook_falls_answer {
    uint32_t number;
    size_t place;
    uint16_t falls; /* APPTBOOK_FALLS_NOT to APPTBOOK_FALLS_MOVED */
} apptbook_falls_answer;

typedef struct apptbook_reason_answer {
    uint32_t number;
    size_t place;
    uint16_t reason; /* APPTBOOK_OWN_DAY to APPTBOOK_WRONG_WEEK; 0 only on a refusal */
} apptbook_reason_answer;

typedef struct apptbook_occurrence_answer {
    uint32_t number;
    size_t place;
    uint32_t looked; /* how many days were looked at */
    uint16_t day;    /* the day that was found, 0 where none was */
    bool found;
} apptbook_occurrence_answer;

typedef struct apptbook_count_answer {
    uint32_t number;
    size_t place;
    size_t count; /* of what the call says */
} apptbook_count_answer;

typedef struct apptbook_page_line_answer {
    uint32_t number;
    size_t place;
    size_t record;      /* number of the record */
    size_t text_at;     /* place of its text in the file */
    size_t text_length; /* 0 to 27 */
    uint16_t start;     /* start minute */
    uint16_t end;       /* end minute */
    bool alarm;         /* alarm on */
    bool moved;         /* the record is moved to this day */
} apptbook_page_line_answer;

/* The choice of a caller who names none, to be handed over as `last`: true, that is last. */
bool apptbook_default_last(void);

/*
 * Whether a record falls on a day: not, on its own day, or moved. All but APPTBOOK_FALLS_NOT (0) are showings.
 * Refused with 11, then with 10 when there is no such record.
 */
apptbook_falls_answer apptbook_falls_on(const uint8_t *file, size_t len, size_t record, uint16_t day,
                                        bool last);

/*
 * Why a record is on a day, or why it is not. The reason is APPTBOOK_OWN_DAY (1) or APPTBOOK_MOVED (2) just where
 * the day's page has the record. APPTBOOK_MONTH_TOO_SHORT (7) is given only on a month's last day and only under
 * skip. Refused with 11, then with 10 when there is no such record.
 */
apptbook_reason_answer apptbook_why(const uint8_t *file, size_t len, size_t record, uint16_t day, bool last);

/*
 * The first day at or after the asked one on which a record falls; looked is then that day - day + 1.
 * Where there is none up to 43,829, found is false, day is 0 and looked is 43,830 - day: number is 0 in this
 * case too. Refused with 11, then with 10 when there is no such record.
 */
apptbook_occurrence_answer apptbook_next_occurrence(const uint8_t *file, size_t len, size_t record,
                                                    uint16_t day, bool last);

/* How many lines the page of a day has. Refused with 11. */
apptbook_count_answer apptbook_page_lines(const uint8_t *file, size_t len, uint16_t day, bool last);

/* A line of the page of a day. Refused with 11, then with 10 when the page has no such line. */
apptbook_page_line_answer apptbook_page_line(const uint8_t *file, size_t len, uint16_t day, bool last,
                                             size_t line);

/* How many bytes the printed page of a day has. Refused with 11. */
apptbook_count_answer apptbook_page_length(const uint8_t *file, size_t len, uint16_t day, bool last);

/*
 * Prints the page of a day into the lent buffer; count is the number of bytes written:
 *
 *   1993-04-30 Fri 2
 *   10:00-11:00* List
 *   14:00-15:30 Dep
 *
 * first the date, the weekday (Sun to Sat) and the number of lines, then for each line start, end and text,
 * with an asterisk straight after the end where the line is moved. Each ends by the byte 0Ah, also the last one.
 * The text's bytes are printed as they are; an empty text leaves the space before it. No zero byte is added.
 * The buffer may not lie in the file. No page has more than 65,535 bytes.
 *
 * Refused with 11, then with 12 when the buffer is shorter than the page; no byte is then changed. Otherwise
 * only the bytes that are written are changed.
 */
apptbook_count_answer apptbook_print_page(const uint8_t *file, size_t len, uint16_t day, bool last,
                                          uint8_t *buffer, size_t buffer_len);

/*
 * The Calendar file.
 *
 * A Windows Calendar file has a head of 64 bytes, a table with a descriptor of 12 bytes for each of its days,
 * and day blocks, each at a multiple of 64, with the day's notes and appointments. Only the days and their
 * appointments are read; reserved bytes, the six settings of the head, marks, alarm counts and notes are
 * ignored. Blocks may stand in any order, with gaps between them; the file's length need not be a multiple of
 * 64, and bytes may follow the last block.
 *
 * Each call judges the whole file first and refuses it with APPTBOOK_CALENDAR_TOO_LONG (20) to
 * APPTBOOK_BAD_APPOINTMENT (24). Of several faults the first in this order counts: 20; 21; 22 for the table's
 * length; 22 descriptor by descriptor; then day by day 23 and 24. The place is 0 for 20 and 21, 64 for the
 * table's length, the descriptor's first byte for a day (22) and for its block (23), and the appointment's
 * first byte for 24.
 *
 * Then come, each with place 0 and in this order: APPTBOOK_OUT_OF_RANGE (11) for a day over 43,829,
 * APPTBOOK_NO_SUCH_NUMBER (10).
 *
 * Descriptors count from 0, and so do the appointments of a day. A day that has no descriptor has no
 * appointments. Texts hold no zero byte and end without one.
 */

/* The flags of an appointment, which may be added. */
enum {
    APPTBOOK_FLAG_ALARM = 1,       /* alarm on */
    APPTBOOK_FLAG_SPECIAL_TIME = 2 /* at a special time, which is not a multiple of the file's interval */
};

typedef struct apptbook_descriptor_answer {
    uint32_t number;
    size_t place;
    uint16_t day;    /* a Calendar day */
    uint16_t offset; /* of its block in units of 64 bytes, as it is stored */
} apptbook_descriptor_answer;

typedef struct apptbook_appointment_answer {
    uint32_t number;
    size_t place;
    size_t text_at;     /* place of the text in the file */
    size_t text_length; /* 0 to 250 */
    uint16_t minute;    /* 0 to 1,439, not below that of the appointment before */
    uint16_t flags;     /* 0 to 3 */
} apptbook_appointment_answer;

/* How many descriptors the file has: its days. */
apptbook_count_answer apptbook_read_calendar(const uint8_t *file, size_t len);

/* The day and the block offset of a descriptor. Refused with 10 when there are not so many. */
apptbook_descriptor_answer apptbook_calendar_day(const uint8_t *file, size_t len, size_t descriptor);

/* How many appointments a day has. Refused with 11. */
apptbook_count_answer apptbook_calendar_appointments(const uint8_t *file, size_t len, uint16_t day);

/* An appointment of a day. Refused with 11, then with 10 when the day has no such appointment. */
apptbook_appointment_answer apptbook_calendar_appointment(const uint8_t *file, size_t len, uint16_t day,
                                                          size_t appointment);

/*
 * The export.
 *
 * Writes count days of a book, from Calendar day `first` on, as a Calendar file to the start of the lent buffer;
 * count of the answer is the number of bytes written. The file has a descriptor for each day on which a record
 * falls, rising, and that day's block lists start minute, alarm and text of just the lines of its page, in the
 * page's order. So what the Calendar calls show of the file on a day of the span is what the page calls show
 * of the book, and on any other day it is nothing. End minutes, lead times, notes and to-dos are dropped.
 *
 * Early ring, sound and start minute are the book's lead time, alarm and display start; the interval is the
 * granularity where that is 15, 30 or 60 minutes, and else 30. An appointment has APPTBOOK_FLAG_SPECIAL_TIME
 * just when its minute is no multiple of the interval.
 *
 * The whole book is judged first (1 to 9). Then come, each with place 0 and in this order:
 * APPTBOOK_OUT_OF_RANGE (11) for a first day over 43,829, a count over 366, or first + count over 43,830;
 * APPTBOOK_TOO_MANY_BLOCKS (13) where a block would start at byte 64 x 32,768 or later;
 * APPTBOOK_NO_ROOM (12) where the buffer is shorter than the file. 2,228,224 bytes of buffer are always enough.
 * On a refusal no byte of the buffer is changed; otherwise only the bytes that are written are changed.
 * The buffer may not lie in the file.
 */
apptbook_count_answer apptbook_export(const uint8_t *file, size_t len, uint16_t first, uint16_t count,
                                      bool last, uint8_t *buffer, size_t buffer_len);

/*
 * HP 200LX day chains.
 *
 * The Single Occurrence Table has five bytes an entry: three of a date, compared as bytes, the first one first,
 * and a record number, low byte first: the head of that day's chain. The last entry, and only the last, has
 * record number 65,535; its date is not looked at. The data records are handed over as four arrays, each with
 * an element for each record number, from 0: its previous and its next record in the chain (65,535 for none),
 * its kind (0 event, 1 appointment, 2 to-do) and its start minute. Records that no chain reaches may hold
 * anything.
 *
 * count of the answer is the number of days: the entries before the last. Number 0 says that the chains of two
 * days share no record, and that each chain ends, after at most as many records as there are.
 *
 * Refused, in this order, with the number of an entry or a record, from 0, as the place:
 *   30  the arrays are not equally long, or longer than 4,096 (place 0);
 *   31  the first entry that is cut short, whose date does not come after that of the entry before it, that has
 *       65,535 and is not the last, or is the last and has not (an empty table: place 0). What is left at the
 *       end of the table is its last entry, cut short;
 *   32  the first entry whose head is no record, has a previous, or is the head of an earlier entry; after all
 *       heads, chain by chain in the table's order, the first record whose next is neither 65,535 nor a record
 *       that has it as its previous;
 *   33  chain by chain, the first record with a kind over 2, an appointment's minute over 1,439, or out of
 *       order: events come first, then appointments by minute, which may be equal, then to-dos. The minutes of
 *       events and to-dos are not looked at.
 */

apptbook_count_answer apptbook_check_chains(const uint8_t *table, size_t table_len, const uint16_t *previous,
                                            size_t previous_len, const uint16_t *next, size_t next_len,
                                            const uint16_t *kinds, size_t kinds_len, const uint16_t *minutes,
                                            size_t minutes_len);

#ifdef __cplusplus
}
#endif

#endif
