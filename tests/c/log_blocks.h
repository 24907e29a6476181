/* The pending issues log as a counter and its standby use it: blocks of console_test over loans.h. */
#ifndef LOG_BLOCKS_H
#define LOG_BLOCKS_H

#include "loans_blocks.h"

_Static_assert(LOANS_LOG_RECORD_MOST == 3 + 4 + 4 + sizeof longest_code, "the longest record");
_Static_assert(LOANS_NOT_BEGUN == 0 && LOANS_RAN == 1 && LOANS_TORN == 2 && LOANS_STOPPED == 3, "the ends");

/* The first label of the specification, issued to borrower 258 and then taken back: its log of 54 bytes. */
static const uint8_t issue_and_return[] = {
    0x03, 0x00, 0x1a, 0x00, 0x00, 0x00, 0x01, 0x00, 0x00, 0x01, 0x02, 0x55, 0x00, 0x6d, 0x3e, 0x22, 0x8c, 0xba,
    0xb6, 0xd7, 0x35, 0x4a, 0x80, 0x50, 0x55, 0xc9, 0xba, 0xf3, 0x96, 0x04, 0x00, 0x16, 0x00, 0x00, 0x00, 0x02,
    0x55, 0x00, 0x6d, 0x3e, 0x22, 0x8c, 0xba, 0xb6, 0xd7, 0x35, 0x4a, 0x80, 0x50, 0x55, 0xc9, 0xba, 0xf3, 0x96};

/* A record as it must be: written here by the layout, not by a call. Answers its length. */
static size_t put_record(uint8_t *at, uint32_t record_number, loans_call call, const uint8_t *code, size_t length,
                         uint32_t borrower) {
    size_t before = call == ISSUE ? 8 : 4;
    at[0] = call == ISSUE ? 3 : 4;
    at[1] = (uint8_t)((before + length) >> 8);
    at[2] = (uint8_t)(before + length);
    for (size_t i = 0; i < 4; i++) at[3 + i] = (uint8_t)(record_number >> (24 - 8 * i));
    for (size_t i = 4; i < before; i++) at[3 + i] = (uint8_t)(borrower >> (56 - 8 * i));
    memcpy(at + 3 + before, code, length);
    return 3 + before + length;
}

/* The writer on a log of `log_len` bytes: it must answer `number` and, on success, write this record at the position, and
 * nothing else. */
static void appends_numbered(uint32_t record_number, loans_call call, const void *code, size_t length, uint32_t borrower,
                             size_t log_len, size_t position, uint32_t number, const char *of) {
    const uint8_t fills[] = {0x00, 0x5a, 0xff};
    for (size_t i = 0; i < sizeof fills; i++) {
        uint8_t *read = copy_of(code, length);
        uint8_t *log = log_len == 0 ? NULL : malloc(log_len), *due = log_len == 0 ? NULL : malloc(log_len);
        if (log_len != 0) memset(log, fills[i], log_len);
        if (log_len != 0) memset(due, fills[i], log_len);
        size_t due_length = number == ISCC_OK ? put_record(due + position, record_number, call, code, length, borrower) : 0;
        iscc_written answer = call == ISSUE
                                  ? loans_log_issue(log, log_len, position, record_number, read, length, borrower)
                                  : loans_log_return(log, log_len, position, record_number, read, length);
        expect_same(call == ISSUE ? "number of log_issue" : "number of log_return", answer.number, number, of);
        expect_same("length", answer.length, due_length, of);
        if (log_len > 0) expect(memcmp(log, due, log_len) == 0, "other bytes in the log", of);
        if (length > 0) expect(memcmp(read, code, length) == 0, "the code was changed", of);
        free(read);
        free(log);
        free(due);
    }
}

/* The same with a record number of which each byte is another one. */
static void appends(loans_call call, const void *code, size_t length, uint32_t borrower, size_t log_len, size_t position,
                    uint32_t number, const char *of) {
    appends_numbered(0x05060708, call, code, length, borrower, log_len, position, number, of);
}

static void both_append(const void *code, size_t length, size_t log_len, size_t position, uint32_t number, const char *of) {
    appends(ISSUE, code, length, 0x01020304, log_len, position, number, of);
    appends(RETURN, code, length, 0, log_len, position, number, of);
}

/* A replay that must answer this and leave `after` in the area, each area being a heap block of just its length. */
static void replay_leaves(const void *log, size_t log_len, uint8_t *area, size_t area_len, loans_replayed due,
                          const uint8_t *after, const char *of) {
    uint8_t *read = copy_of(log, log_len);
    loans_replayed answer = loans_replay(read, log_len, area, area_len);
    expect_same("number of replay", answer.number, due.number, of);
    expect_same("end", answer.end, due.end, of);
    expect_same("offset", answer.offset, due.offset, of);
    if (area_len > 0) expect(memcmp(area, after, area_len) == 0, "other bytes in the register", of);
    if (log_len > 0) expect(memcmp(read, log, log_len) == 0, "the log was changed", of);
    free(read);
}

/* The same on a register of which the call has a copy. */
static void replay_gives(const void *log, size_t log_len, const uint8_t *before, loans_replayed due, const uint8_t *after,
                         const char *of) {
    uint8_t *area = copy_of(before, REGISTER);
    replay_leaves(log, log_len, area, REGISTER, due, after, of);
    free(area);
}

/* The answers that a replay which is not refused gives, and that of one that a record stops. */
static const loans_replayed ran = {ISCC_OK, LOANS_RAN, 0};

static loans_replayed torn_at(size_t offset) {
    return (loans_replayed){ISCC_OK, LOANS_TORN, offset};
}

static loans_replayed stopped(uint32_t number, size_t offset) {
    return (loans_replayed){number, LOANS_STOPPED, offset};
}

/* The specification's log, by the writer: record behind record, and no byte between or behind. */
static void log_records(void) {
    uint8_t log[60];
    memset(log, 0x5a, sizeof log);
    iscc_written first = loans_log_issue(log, sizeof log, 0, 1, composite_code, sizeof composite_code, 258);
    iscc_written second = loans_log_return(log, sizeof log, first.length, 2, composite_code, sizeof composite_code);
    expect_same("length", first.length, 29, "issue to 258");
    expect_same("length", second.length, 25, "return");
    expect(memcmp(log, issue_and_return, 54) == 0, "other bytes in the log", "the specification's log");
    expect(all_are(log + 54, sizeof log - 54, 0x5a), "a byte behind the log was changed", "the specification's log");
    both_append(shortest_code, sizeof shortest_code, 20, 3, ISCC_OK, "shortest code");
    both_append(longest_code, sizeof longest_code, LOANS_LOG_RECORD_MOST, 0, ISCC_OK, "longest code");
    appends(ISSUE, shortest_code, sizeof shortest_code, 0xffffffff, 70000, 65536, ISCC_OK, "far behind");
}

/* What is not exactly one unit or composite is 24, whether there is room or not. */
static void log_codes(void) {
    const uint8_t units[] = {0x30, 0x01, 0x6d, 0x3e, 0x22, 0x8c, 0xba, 0xb6, 0xd7, 0x35,
                             0x40, 0x01, 0x4a, 0x80, 0x50, 0x55, 0xc9, 0xba, 0xf3, 0x96};
    const uint8_t other_length[34] = {0x57, 0x01}, behind[7] = {0x30, 0x00, 0xff, 0x00, 0x00, 0x01};
    const uint8_t behind_wide[35] = {0x57, 0x00};
    uint8_t *large = calloc(1, 65542);
    if (large == NULL) abort();
    memcpy(large, shortest_code, sizeof shortest_code);
    const struct {
        const uint8_t *code;
        size_t length;
        const char *what;
    } bad[] = {
        {NULL, 0, "no code"},
        {composite_code, 1, "half a header"},
        {composite_code, sizeof composite_code - 1, "cut code"},
        {units, sizeof units, "two units"},
        {behind, sizeof behind, "a byte behind"},
        {wide_code, sizeof wide_code - 1, "cut wide composite"},
        {behind_wide, sizeof behind_wide, "a byte behind a wide composite"},
        {other_length, sizeof other_length, "57 01"},
        {large, 65536, "65536 bytes"},
        {large, 65542, "65542 bytes, which two bytes would take for 6"},
    };
    for (size_t i = 0; i < sizeof bad / sizeof *bad; i++) {
        both_append(bad[i].code, bad[i].length, 100, 0, ISCC_NOT_RECORD, bad[i].what);
        both_append(bad[i].code, bad[i].length, 0, 0, ISCC_NOT_RECORD, bad[i].what);
        both_append(bad[i].code, bad[i].length, 3, 7, ISCC_NOT_RECORD, bad[i].what);
    }
    free(large);
}

/* Just its room, one byte less, none, and positions past the end, the greatest too. */
static void log_room(void) {
    const size_t past[] = {51, 78, SIZE_MAX / 2, SIZE_MAX - 28, SIZE_MAX - 24, SIZE_MAX};
    const uint8_t *code = composite_code;
    const size_t length = sizeof composite_code;
    appends(ISSUE, code, length, 5, 29, 0, ISCC_OK, "29 bytes");
    appends(ISSUE, code, length, 5, 28, 0, ISCC_AREA_TOO_SHORT, "28 bytes");
    appends(ISSUE, code, length, 5, 50, 21, ISCC_OK, "the last 29 bytes");
    appends(ISSUE, code, length, 5, 50, 22, ISCC_AREA_TOO_SHORT, "the last 28 bytes");
    appends(RETURN, code, length, 0, 25, 0, ISCC_OK, "25 bytes");
    appends(RETURN, code, length, 0, 24, 0, ISCC_AREA_TOO_SHORT, "24 bytes");
    appends(RETURN, code, length, 0, 50, 25, ISCC_OK, "the last 25 bytes");
    appends(RETURN, code, length, 0, 50, 26, ISCC_AREA_TOO_SHORT, "the last 24 bytes");
    both_append(code, length, 0, 0, ISCC_AREA_TOO_SHORT, "null log");
    both_append(code, length, 50, 50, ISCC_AREA_TOO_SHORT, "at the end");
    for (size_t i = 0; i < sizeof past / sizeof *past; i++)
        both_append(code, length, 50, past[i], ISCC_AREA_TOO_SHORT, "past the end");
}

/* Record numbers from 1 to the greatest stand high byte first. 0 is 24, whether there is room or not; that a number is the next
 * of its log is no matter for the writer. */
static void log_numbers(void) {
    const uint32_t numbers[] = {1, 2, 0xff, 0x100, 0x01020304, 0x80000000, SPENT};
    for (loans_call call = ISSUE; call <= RETURN; call++) {
        for (size_t i = 0; i < sizeof numbers / sizeof *numbers; i++)
            appends_numbered(numbers[i], call, composite_code, sizeof composite_code, 258, 60, 7, ISCC_OK, "a record number");
        appends_numbered(0, call, composite_code, sizeof composite_code, 258, 60, 7, ISCC_NOT_RECORD, "record number 0");
        appends_numbered(0, call, composite_code, sizeof composite_code, 258, 20, 0, ISCC_NOT_RECORD, "0, no room");
        appends_numbered(0, call, composite_code, sizeof composite_code, 258, 0, 0, ISCC_NOT_RECORD, "0, null log");
        appends_numbered(0, call, composite_code, sizeof composite_code, 258, 20, 21, ISCC_NOT_RECORD, "0, past the end");
        appends_numbered(0, call, composite_code, 17, 258, 60, 0, ISCC_NOT_RECORD, "0 and a cut code");
    }
}

/* A wide composite in records: written, and replayed from an issue to a return. */
static void log_wide(void) {
    uint8_t log[100], *fresh = fresh_register(), *after = fresh_register(), *back = fresh_register();
    both_append(wide_code, sizeof wide_code, 45, 0, ISCC_OK, "a wide composite");
    appends(ISSUE, wide_code, sizeof wide_code, 5, 44, 0, ISCC_AREA_TOO_SHORT, "a wide composite, 44 bytes");
    appends(RETURN, wide_code, sizeof wide_code, 0, 40, 0, ISCC_AREA_TOO_SHORT, "a wide composite, 40 bytes");
    size_t start = put_record(log, 1, ISSUE, wide_code, sizeof wide_code, 5);
    size_t end = start + put_record(log + start, 2, RETURN, wide_code, sizeof wide_code, 0);
    put_place(after, 0, wide_code, sizeof wide_code, 5);
    put_last(after, 1);
    put_last(back, 2);
    replay_gives(log, start, fresh, ran, after, "issue of a wide composite");
    replay_gives(log, end - 1, fresh, torn_at(start), after, "return that is not whole");
    replay_gives(log, end, fresh, ran, back, "return of a wide composite");
    log[start + 8] = 0x01; /* subtype 7 with another length */
    replay_gives(log, end, fresh, stopped(ISCC_NOT_RECORD, start), after, "return of 57 01");
    put_record(log, 2, ISSUE, wide_code, sizeof wide_code, 5);
    replay_gives(log, start, after, stopped(ISCC_ALREADY_OUT, 0), after, "a wide composite twice");
    free(fresh);
    free(after);
    free(back);
}

/* Three records, torn off behind each byte: the register is the one of the whole records, and the tear is told. */
static void log_every_cut(void) {
    uint8_t log[200] = {0}, *registers[4], *area = fresh_register();
    size_t starts[4] = {0};
    starts[1] = starts[0] + put_record(log + starts[0], 1, ISSUE, composite_code, sizeof composite_code, 0x01020304);
    starts[2] = starts[1] + put_record(log + starts[1], 2, ISSUE, shortest_code, sizeof shortest_code, 7);
    starts[3] = starts[2] + put_record(log + starts[2], 3, RETURN, composite_code, sizeof composite_code, 0);
    registers[0] = copy_of(area, REGISTER);
    put_place(area, 0, composite_code, sizeof composite_code, 0x01020304);
    put_last(area, 1);
    registers[1] = copy_of(area, REGISTER);
    make_room(area, 0, shortest_code, sizeof shortest_code, 7);
    put_last(area, 2);
    registers[2] = copy_of(area, REGISTER);
    close_gap(area, 1);
    put_last(area, 3);
    registers[3] = copy_of(area, REGISTER);
    for (size_t cut = 0, whole = 0; cut <= starts[3]; cut++) {
        if (whole < 3 && cut == starts[whole + 1]) whole++;
        loans_replayed due = cut == starts[whole] ? ran : torn_at(starts[whole]);
        replay_gives(log, cut, registers[0], due, registers[whole], "three records, cut");
        /* Onto a register that has some of them or all: those are skipped, and none is applied twice. */
        for (size_t had = 0; had < 4; had++)
            replay_gives(log, cut, registers[had], due, registers[had > whole ? had : whole], "a part is applied already");
        log[starts[whole]] ^= 0x40; /* where it is not whole, its tag does not matter */
        if (cut > starts[whole]) replay_gives(log, cut, registers[0], due, registers[whole], "another tag, cut");
        log[starts[whole]] ^= 0x40;
        if (cut >= starts[whole] + 7) { /* and its number does not either */
            log[starts[whole] + 6] ^= 0x07;
            replay_gives(log, cut, registers[0], due, registers[whole], "another number, cut");
            log[starts[whole] + 6] ^= 0x07;
        }
    }
    for (int i = 0; i < 4; i++) free(registers[i]);
    free(area);
}

/* A record that cannot be applied stops the replay; what is behind it is not read, and what was before it stays. */
static void log_stops(void) {
    uint8_t log[200], *before = fresh_register(), *after = fresh_register();
    size_t start, end;
    put_place(before, 0, longest_code, sizeof longest_code, 9);
    put_last(before, 6);
    put_place(after, 0, shortest_code, sizeof shortest_code, 7);
    put_place(after, 1, longest_code, sizeof longest_code, 9);
    put_last(after, 7);
    start = put_record(log, 7, ISSUE, shortest_code, sizeof shortest_code, 7);
    for (loans_call call = ISSUE; call <= RETURN; call++) {
        uint32_t number = call == ISSUE ? ISCC_ALREADY_OUT : ISCC_NOT_OUT;
        const uint8_t *code = call == ISSUE ? longest_code : composite_code;
        size_t length = call == ISSUE ? sizeof longest_code : sizeof composite_code;
        end = start + put_record(log + start, 8, call, code, length, 8);
        replay_gives(log, end, before, stopped(number, start), after, "stop at the end");
        replay_gives(log, end - 1, before, torn_at(start), after, "stop that is not whole");
        size_t more = end + put_record(log + end, 9, RETURN, shortest_code, sizeof shortest_code, 0);
        replay_gives(log, more, before, stopped(number, start), after, "a record behind");
        replay_gives(log, more - 1, before, stopped(number, start), after, "a tear behind");
        replay_gives(log, more, after, stopped(number, start), after, "once more");
        replay_gives(log + start, end - start, after, stopped(number, 0), after, "stop at once");
    }
    free(before);
    free(after);
}

/* Whole records that are neither an issue nor a return, behind one that is applied. */
static void log_no_records(void) {
    const struct {
        uint8_t bytes[28];
        size_t length;
        const char *what;
    } bad[] = {
        {{0, 0, 0}, 3, "zeros behind the log"},
        {{3, 0, 0}, 3, "an empty issue"},
        {{4, 0, 0}, 3, "an empty return"},
        {{3, 0, 3, 0, 0, 0}, 6, "an issue with three bytes of a number"},
        {{4, 0, 3, 0, 0, 0}, 6, "a return with three bytes of a number"},
        {{3, 0, 4, 0, 0, 0, 2}, 7, "an issue of a number alone"},
        {{4, 0, 4, 0, 0, 0, 2}, 7, "a return of a number alone"},
        {{3, 0, 7, 0, 0, 0, 2, 0, 0, 1}, 10, "an issue with three bytes of a borrower"},
        {{3, 0, 8, 0, 0, 0, 2, 0, 0, 1, 2}, 11, "an issue without a code"},
        {{3, 0, 13, 0, 0, 0, 2, 0, 0, 1, 2, 0x30, 0, 0, 0, 0}, 16, "an issue of a cut code"},
        {{3, 0, 15, 0, 0, 0, 2, 0, 0, 1, 2, 0x30, 0, 0, 0, 0, 0, 0}, 18, "an issue with a byte behind"},
        {{3, 0, 10, 0, 0, 0, 2, 0x30, 0, 0xff, 0, 0, 1}, 13, "a return that is tagged as an issue"},
        {{4, 0, 9, 0, 0, 0, 2, 0x30, 0, 0, 0, 0}, 12, "a return of a cut code"},
        {{4, 0, 11, 0, 0, 0, 2, 0x30, 0, 0xff, 0, 0, 1, 0}, 14, "a return with a byte behind"},
        {{4, 0, 24, 0, 0, 0, 2, 0x30, 1, 0, 0, 0, 0, 0, 0, 0, 0, 0x40, 1}, 27, "a return of two units"},
        {{4, 0, 10, 0, 0, 0, 0, 0x30, 0, 0xff, 0, 0, 1}, 13, "a return with number 0"},
        {{3, 0, 14, 0, 0, 0, 0, 0, 0, 1, 2, 0x30, 0, 0, 0, 0, 0}, 17, "an issue with number 0"},
        {{5, 0, 10, 0, 0, 0, 2, 0x30, 0, 0xff, 0, 0, 1}, 13, "tag 5"},
        {{0, 0, 10, 0, 0, 0, 2, 0x30, 0, 0xff, 0, 0, 1}, 13, "tag 0"},
        {{0x84, 0, 10, 0, 0, 0, 2, 0x30, 0, 0xff, 0, 0, 1}, 13, "tag 132"},
        {{1, 0, 14, 0, 0, 0, 2, 0, 0, 1, 2, 0x30, 0, 0, 0, 0, 0}, 17, "tag 1 and a number"},
        {{2, 0, 10, 0, 0, 0, 2, 0x30, 0, 0xff, 0, 0, 1}, 13, "tag 2 and a number"},
        {{1, 0, 10, 0, 0, 1, 2, 0x30, 0, 0, 0, 0, 0}, 13, "an issue as it was before 0.7"},
        {{2, 0, 6, 0x30, 0, 0xff, 0, 0, 1}, 9, "a return as it was before 0.7"},
        {{3, 0, 10, 0, 0, 1, 2, 0x30, 0, 0, 0, 0, 0}, 13, "an older issue with tag 3"},
        {{4, 0, 6, 0x30, 0, 0xff, 0, 0, 1}, 9, "an older return with tag 4"},
        {{4, 0, 9, 0, 0, 0, 9, 0x30, 0, 0, 0, 0}, 12, "a return of a cut code, behind a gap"},
        {{5, 0, 10, 0, 0, 0, 9, 0x30, 0, 0xff, 0, 0, 1}, 13, "tag 5, behind a gap"},
    };
    uint8_t log[100], *fresh = fresh_register(), *after = fresh_register();
    size_t start = put_record(log, 1, ISSUE, shortest_code, sizeof shortest_code, 7);
    put_place(after, 0, shortest_code, sizeof shortest_code, 7);
    put_last(after, 1);
    for (size_t i = 0; i < sizeof bad / sizeof *bad; i++) {
        memcpy(log + start, bad[i].bytes, bad[i].length);
        size_t end = start + bad[i].length;
        replay_gives(log, end, fresh, stopped(ISCC_NOT_RECORD, start), after, bad[i].what);
        replay_gives(log, end, after, stopped(ISCC_NOT_RECORD, start), after, bad[i].what);
        replay_gives(log, end - 1, fresh, torn_at(start), after, bad[i].what);
        put_record(log + end, 2, RETURN, shortest_code, sizeof shortest_code, 0);
        replay_gives(log, end + 13, fresh, stopped(ISCC_NOT_RECORD, start), after, bad[i].what);
    }
    /* A length that reaches past the end is a tear, whatever was meant. */
    put_record(log + start, 2, RETURN, shortest_code, sizeof shortest_code, 0);
    log[start + 1] = 1;
    replay_gives(log, start + 13, fresh, torn_at(start), after, "a damaged length");
    free(fresh);
    free(after);
}

/* Records of a row in falling order, and of returns from its middle: each issue makes room, each return closes its gap. */
static void log_moves(void) {
    enum { COUNT = 9, BACK = 3 };
    uint8_t log[COUNT * 21 + BACK * 17], *fresh = fresh_register(), *after = fresh_register(), code[10];
    char text[ISCC_TEXT_AREA + 1];
    size_t length = 0;
    uint32_t last = 0;
    for (size_t i = COUNT; i-- > 0;) {
        code_of_row(i, code, text);
        length += put_record(log + length, ++last, ISSUE, code, sizeof code, (uint32_t)i);
        make_room(after, 0, code, sizeof code, (uint32_t)i);
        put_last(after, last);
        replay_gives(log, length, fresh, ran, after, "falling codes");
    }
    for (size_t i = 0; i < BACK; i++) {
        code_of_row(BACK + i, code, text);
        length += put_record(log + length, ++last, RETURN, code, sizeof code, 0);
        close_gap(after, BACK);
        put_last(after, last);
        replay_gives(log, length, fresh, ran, after, "returns from the middle");
    }
    free(fresh);
    free(after);
}

/* A row of codes from the empty register on, one more than there are places. */
static void log_full(void) {
    uint8_t *log = malloc((PLACES + 1) * 21), *area = fresh_register(), *fresh = fresh_register(), code[10];
    char text[ISCC_TEXT_AREA + 1];
    size_t length = 0, last = 0;
    if (log == NULL) abort();
    for (size_t i = 0; i <= PLACES; i++) {
        code_of_row(i, code, text);
        last = length;
        length += loans_log_issue(log, (PLACES + 1) * 21, length, (uint32_t)i + 1, code, sizeof code, (uint32_t)i).length;
        if (i < PLACES) issue_row(area, i, i);
    }
    expect_same("length of the log", length, (PLACES + 1) * 21, "257 issues");
    replay_gives(log, last, fresh, ran, area, "256 issues");
    replay_gives(log, last, area, ran, area, "256 issues, applied already");
    replay_gives(log, length - 1, fresh, torn_at(last), area, "256 issues and a tear");
    replay_gives(log, length, fresh, stopped(ISCC_ALL_OUT, last), area, "257 issues");
    replay_gives(log, length, area, stopped(ISCC_ALL_OUT, last), area, "257 issues, 256 applied already");
    free(log);
    free(area);
    free(fresh);
}

/* Counts after replays, by hand: a unit, a composite, a wide composite and an ID go out and come back; the counts of the codes
 * that were out stay, and those of a tear or a stop are those of the records before it. So is the last number. */
static void log_counts(void) {
    uint8_t log[300], *area = fresh_register();
    size_t issued, end, stop;
    put_place(area, 0, longest_code, sizeof longest_code, 9);
    issued = put_record(log, 1, ISSUE, wide_code, sizeof wide_code, 1);
    issued += put_record(log + issued, 2, ISSUE, shortest_code, sizeof shortest_code, 2);
    issued += put_record(log + issued, 3, ISSUE, id_code, sizeof id_code, 3);
    issued += put_record(log + issued, 4, ISSUE, composite_code, sizeof composite_code, 4);
    end = issued + put_record(log + issued, 5, RETURN, shortest_code, sizeof shortest_code, 0);
    end += put_record(log + end, 6, RETURN, wide_code, sizeof wide_code, 0);
    stop = end + put_record(log + end, 7, RETURN, wide_code, sizeof wide_code, 0);
    const struct {
        size_t length;
        loans_counted due;
        uint32_t last;
        const char *what;
    } cuts[] = {
        {0, {.out = 1, .iscc = 1}, 0, "no records"},
        {issued, {.out = 5, .data = 1, .iscc = 3, .id = 1}, 4, "four issues"},
        {issued - 1, {.out = 4, .data = 1, .iscc = 2, .id = 1}, 3, "three issues and a tear"},
        {end, {.out = 3, .iscc = 2, .id = 1}, 6, "two returns"},
        {stop - 1, {.out = 3, .iscc = 2, .id = 1}, 6, "two returns and a tear"},
        {stop, {.out = 3, .iscc = 2, .id = 1}, 6, "two returns and a stop"},
    };
    for (size_t i = 0; i < sizeof cuts / sizeof *cuts; i++) {
        uint8_t *after = copy_of(area, REGISTER);
        for (int times = 0; times < 2; times++) {
            loans_replayed answer = loans_replay(log, cuts[i].length, after, REGISTER);
            expect_same("number of replay", answer.number, cuts[i].length == stop ? ISCC_NOT_OUT : ISCC_OK, cuts[i].what);
            counted(after, REGISTER, cuts[i].due, cuts[i].what);
            expect_same("last number", last_of(after), cuts[i].last, cuts[i].what);
        }
        free(after);
    }
    free(area);
}

/* A record whose number is not the next is 25: at the start and behind others, near and far, before 20 to 22. It stops the
 * replay as 24 does. */
static void log_gaps(void) {
    const uint32_t off[] = {2, 3, 256, 0x01000000, 0x80000000, SPENT - 5};
    uint8_t log[200], *before = fresh_register(), *after = fresh_register(), *full = fresh_register(), code[10];
    char text[ISCC_TEXT_AREA + 1];
    size_t start, end;
    put_last(before, 4);
    put_place(after, 0, shortest_code, sizeof shortest_code, 7);
    put_last(after, 5);
    start = put_record(log, 5, ISSUE, shortest_code, sizeof shortest_code, 7);
    for (size_t i = 0; i < sizeof off / sizeof *off; i++) {
        for (loans_call call = ISSUE; call <= RETURN; call++) {
            end = start + put_record(log + start, 5 + off[i], call, composite_code, sizeof composite_code, 8);
            replay_gives(log, end, before, stopped(ISCC_NUMBER_GAP, start), after, "a gap");
            replay_gives(log, end - 1, before, torn_at(start), after, "a gap before a tear");
            replay_gives(log + start, end - start, before, stopped(ISCC_NUMBER_GAP, 0), before, "a gap at once");
            size_t more = end + put_record(log + end, 6, RETURN, shortest_code, sizeof shortest_code, 0);
            replay_gives(log, more, before, stopped(ISCC_NUMBER_GAP, start), after, "the missing record behind a gap");
            /* What it says could not be applied either: the issue is out already, the return is not out. */
            const uint8_t *other = call == ISSUE ? shortest_code : longest_code;
            size_t length = call == ISSUE ? sizeof shortest_code : sizeof longest_code;
            end = start + put_record(log + start, 5 + off[i], call, other, length, 8);
            replay_gives(log, end, before, stopped(ISCC_NUMBER_GAP, start), after, "a gap before 20 or 22");
        }
    }
    for (size_t i = 0; i < PLACES; i++) {
        code_of_row(i, code, text);
        put_place(full, i, code, sizeof code, 7);
    }
    end = put_record(log, 2, ISSUE, composite_code, sizeof composite_code, 8);
    replay_gives(log, end, full, stopped(ISCC_NUMBER_GAP, 0), full, "a gap before 21");
    put_last(full, 1);
    replay_gives(log, end, full, stopped(ISCC_ALL_OUT, 0), full, "21 where it is the next");
    free(before);
    free(after);
    free(full);
}

/* Numbers that are not above the last are skipped, whatever their records say and in whatever order they stand; the next one is
 * applied, also behind and between skipped ones. */
static void log_skips(void) {
    uint8_t log[300], *before = fresh_register(), *after = fresh_register();
    size_t skipped = 0, end;
    put_place(before, 0, shortest_code, sizeof shortest_code, 7);
    put_last(before, 0x00010002);
    put_place(after, 0, shortest_code, sizeof shortest_code, 7);
    put_place(after, 1, composite_code, sizeof composite_code, 8);
    put_last(after, 0x00010003);
    skipped += put_record(log + skipped, 0x00010002, ISSUE, shortest_code, sizeof shortest_code, 9); /* else 20 */
    skipped += put_record(log + skipped, 1, RETURN, longest_code, sizeof longest_code, 0);           /* else 22 */
    skipped += put_record(log + skipped, 0x0000ffff, RETURN, shortest_code, sizeof shortest_code, 0);
    skipped += put_record(log + skipped, 0x00010001, ISSUE, wide_code, sizeof wide_code, 9);
    replay_gives(log, skipped, before, ran, before, "all are skipped");
    replay_gives(log, skipped - 1, before, torn_at(skipped - 45), before, "skipped ones and a tear");
    end = skipped + put_record(log + skipped, 0x00010003, ISSUE, composite_code, sizeof composite_code, 8);
    replay_gives(log, end, before, ran, after, "the next behind skipped ones");
    replay_gives(log, end, after, ran, after, "the same, and it is applied already");
    replay_gives(log, end - 1, before, torn_at(skipped), before, "the next is not whole");
    size_t twice = end + put_record(log + end, 0x00010003, RETURN, composite_code, sizeof composite_code, 0);
    replay_gives(log, twice, before, ran, after, "two records of one number");
    size_t gap = twice + put_record(log + twice, 0x00010005, RETURN, composite_code, sizeof composite_code, 0);
    replay_gives(log, gap, before, stopped(ISCC_NUMBER_GAP, twice), after, "a gap behind skipped ones");
    free(before);
    free(after);
}

/* A whole record that is none is 24, also where its number is applied already. */
static void log_skipped_damage(void) {
    const struct {
        size_t offset;
        uint8_t byte;
        const char *what;
    } damages[] = {
        {0, 1, "tag 1"},       {0, 2, "tag 2"},          {0, 4, "an issue tagged as a return"}, {0, 5, "tag 5"},
        {0, 0, "tag 0"},       {6, 0, "record number 0"}, {11, 0x75, "main type 7"},            {12, 1, "another length"},
    };
    uint8_t log[100], *area = fresh_register();
    put_last(area, 200);
    size_t start = put_record(log, 5, RETURN, wide_code, sizeof wide_code, 0);
    size_t end = start + put_record(log + start, 7, ISSUE, composite_code, sizeof composite_code, 8);
    replay_gives(log, end, area, ran, area, "two skipped records");
    for (size_t i = 0; i < sizeof damages / sizeof *damages; i++) {
        uint8_t was = log[start + damages[i].offset];
        log[start + damages[i].offset] = damages[i].byte;
        replay_gives(log, end, area, stopped(ISCC_NOT_RECORD, start), area, damages[i].what);
        replay_gives(log, end - 1, area, torn_at(start), area, damages[i].what);
        log[start + damages[i].offset] = was;
    }
    free(area);
}

/* A log by live calls, replayed again and again: torn off behind each byte and then whole it gives the register of the live
 * calls, and from then on nothing changes, whatever part of it is replayed. */
static void log_again(void) {
    const char *typed[] = {UNITS, SHORTEST, WIDE, AN_ID, SHORTEST, COMPOSITE, SHORTEST};
    const bool back[] = {false, false, false, false, true, true, false};
    enum { COUNT = sizeof back / sizeof *back };
    uint8_t log[COUNT * LOANS_LOG_RECORD_MOST], *live = fresh_register(), code[ISCC_CODE_AREA];
    size_t length = 0;
    for (size_t i = 0; i < COUNT; i++) {
        const uint8_t *text = (const uint8_t *)typed[i];
        size_t text_len = strlen(typed[i]), code_len = iscc_code(text, text_len, code, sizeof code).length;
        loans_changed changed = back[i] ? loans_return(text, text_len, live, REGISTER)
                                        : loans_issue(text, text_len, (uint32_t)i, live, REGISTER);
        expect_same("record number", changed.record_number, i + 1, typed[i]);
        length += back[i] ? loans_log_return(log, sizeof log, length, changed.record_number, code, code_len).length
                          : loans_log_issue(log, sizeof log, length, changed.record_number, code, code_len, (uint32_t)i).length;
    }
    for (size_t cut = 0; cut <= length; cut++) {
        uint8_t *area = fresh_register();
        loans_replayed first = loans_replay(log, cut, area, REGISTER);
        expect_same("number of replay", first.number, ISCC_OK, "a part");
        replay_leaves(log, length, area, REGISTER, ran, live, "the whole log behind a part");
        replay_leaves(log, length, area, REGISTER, ran, live, "the whole log a second time");
        replay_leaves(log, cut, area, REGISTER, first, live, "the part a second time");
        /* From the offset of the tear on, or from the cut, it can be replayed too. */
        size_t from = first.end == LOANS_TORN ? first.offset : cut;
        replay_leaves(log + from, length - from, area, REGISTER, ran, live, "the rest a second time");
        free(area);
    }
    free(live);
}

/* A skip compares numbers alone: a live call took number 1, and so record 1 of a log is skipped, whatever it says. */
static void log_live_number(void) {
    uint8_t *area = fresh_register(), *after = fresh_register();
    issue_takes(area, 0, AN_ID, 5, id_code, sizeof id_code);
    put_place(after, 0, id_code, sizeof id_code, 5);
    put_last(after, 1);
    replay_gives(issue_and_return, 29, area, ran, after, "another change of this number");
    replay_gives(issue_and_return, 54, area, stopped(ISCC_NOT_OUT, 29), after, "the return of what was skipped");
    free(area);
    free(after);
}

/* The greatest number is applied as any other; then all numbers are, and every whole record is skipped: never 26. */
static void log_spent(void) {
    uint8_t log[200], *before = fresh_register(), *after = fresh_register();
    size_t start, end;
    put_last(before, SPENT - 1);
    put_place(after, 0, shortest_code, sizeof shortest_code, 7);
    put_last(after, SPENT);
    start = put_record(log, SPENT, ISSUE, shortest_code, sizeof shortest_code, 7);
    replay_gives(log, start, before, ran, after, "the greatest number");
    end = start + put_record(log + start, SPENT, ISSUE, shortest_code, sizeof shortest_code, 7);
    end += put_record(log + end, 1, RETURN, longest_code, sizeof longest_code, 7);
    end += put_record(log + end, SPENT - 1, ISSUE, composite_code, sizeof composite_code, 7);
    replay_gives(log, end, before, ran, after, "the greatest number, and others behind");
    replay_gives(log, end, after, ran, after, "all numbers applied");
    replay_gives(log, end - 1, after, torn_at(end - 29), after, "all numbers applied, and a tear");
    log[end - 29] = 5;
    replay_gives(log, end, after, stopped(ISCC_NOT_RECORD, end - 29), after, "all numbers applied, and no record");
    issue_refused(after, COMPOSITE, ISCC_NUMBERS_SPENT);
    free(before);
    free(after);
}

/* A log of a version before 0.7 has tags 1 and 2 and no numbers: whole records of it are 24, and a tear is a tear. */
static void log_older(void) {
    const uint8_t older[] = {
        0x01, 0x00, 0x16, 0x00, 0x00, 0x01, 0x02, 0x55, 0x00, 0x6d, 0x3e, 0x22, 0x8c, 0xba, 0xb6, 0xd7,
        0x35, 0x4a, 0x80, 0x50, 0x55, 0xc9, 0xba, 0xf3, 0x96, 0x02, 0x00, 0x12, 0x55, 0x00, 0x6d, 0x3e,
        0x22, 0x8c, 0xba, 0xb6, 0xd7, 0x35, 0x4a, 0x80, 0x50, 0x55, 0xc9, 0xba, 0xf3, 0x96};
    uint8_t *fresh = fresh_register(), *applied = fresh_register();
    put_last(applied, SPENT);
    replay_gives(older, 46, fresh, stopped(ISCC_NOT_RECORD, 0), fresh, "an older log");
    replay_gives(older + 25, 21, fresh, stopped(ISCC_NOT_RECORD, 0), fresh, "an older return");
    replay_gives(older, 46, applied, stopped(ISCC_NOT_RECORD, 0), applied, "an older log, all numbers applied");
    replay_gives(older, 24, fresh, torn_at(0), fresh, "an older log, torn");
    free(fresh);
    free(applied);
}

/* 23 comes before anything of the log, and changes nothing. */
static void log_not_a_register(void) {
    const uint8_t zeros[3] = {0, 0, 0};
    const struct {
        const uint8_t *bytes;
        size_t length;
    } logs[] = {{NULL, 0}, {issue_and_return, 54}, {issue_and_return, 30}, {issue_and_return, 1}, {zeros, 3}};
    const size_t lengths[] = {0, 1, LAST - COUNTS, LAST, REGISTER - 1, REGISTER + 1, REGISTER};
    uint8_t *exchanged = fresh_register(), *hole = fresh_register(), *miscounted = fresh_register();
    put_place(exchanged, 0, wide_code, sizeof wide_code, 5);
    put_place(exchanged, 1, shortest_code, sizeof shortest_code, 5);
    put_place(hole, 1, shortest_code, sizeof shortest_code, 5);
    put_place(miscounted, 0, composite_code, sizeof composite_code, 5);
    put_count(miscounted, 4, 1); /* what a unit of it would count */
    for (size_t i = 0; i < sizeof logs / sizeof *logs; i++) {
        const loans_replayed due = {ISCC_NOT_REGISTER, LOANS_NOT_BEGUN, 0};
        replay_gives(logs[i].bytes, logs[i].length, exchanged, due, exchanged, "two codes exchanged");
        replay_gives(logs[i].bytes, logs[i].length, hole, due, hole, "the first place free");
        replay_gives(logs[i].bytes, logs[i].length, miscounted, due, miscounted, "a count one too high");
        for (size_t j = 0; j < sizeof lengths / sizeof *lengths; j++) {
            uint8_t *area = lengths[j] == 0 ? NULL : calloc(1, lengths[j]);
            if (lengths[j] == REGISTER) area[LAST - 1] = 1; /* the right length, and damaged */
            uint8_t *before = copy_of(area, lengths[j]);
            replay_leaves(logs[i].bytes, logs[i].length, area, lengths[j], due, before, "not a register");
            free(area);
            free(before);
        }
    }
    free(exchanged);
    free(hole);
    free(miscounted);
}

/* A replay writes nothing to the log, not even the bytes that are there: this one lies where nobody may write. */
static void log_only_read(void) {
    uint8_t *area = fresh_register(), *before = fresh_register();
    loans_replayed answer = loans_replay(issue_and_return, 54, area, REGISTER);
    expect_same("number", answer.number, ISCC_OK, "log that cannot be written");
    expect_same("end", answer.end, LOANS_RAN, "log that cannot be written");
    put_last(before, 2);
    expect(memcmp(area, before, REGISTER) == 0, "other bytes in the register", "issue and return");
    replay_gives(NULL, 0, before, ran, before, "null log");
    free(area);
    free(before);
}

#endif
