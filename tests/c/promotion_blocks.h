/* May a replica be promoted? As the operator of a standby asks it: blocks of console_test over loans.h. */
#ifndef PROMOTION_BLOCKS_H
#define PROMOTION_BLOCKS_H

#include "log_blocks.h"

_Static_assert(sizeof((loans_verdict *)0)->code == sizeof longest_code, "the code of a verdict");

static loans_verdict verdict_of(uint32_t number) {
    return (loans_verdict){.number = number};
}

/* A record that stops the replay, or the torn one, starts there. */
static loans_verdict verdict_at(uint32_t number, size_t offset) {
    return (loans_verdict){.number = number, .offset = offset};
}

static loans_verdict differs(const uint8_t *code, size_t length) {
    loans_verdict due = {.number = ISCC_LOANS_DIFFER, .code_length = length};
    memcpy(due.code, code, length);
    return due;
}

/* What may be in a work area before: one byte all over, or the replica again and again, which begins as a register. */
enum { ZEROS, FIVE_A, ONES, REPLICA, FILLINGS };

static void fill_work(uint8_t *work, size_t work_len, int filling, const uint8_t *replica, size_t replica_len) {
    const uint8_t fills[FILLINGS] = {0x00, 0x5a, 0xff, 0x01};
    for (size_t i = 0; i < work_len; i++)
        work[i] = filling == REPLICA && replica_len > 0 ? replica[i % replica_len] : fills[filling];
}

/* The bare call on these very areas, and a work area with this filling. It must answer `due`, each byte of the code too, and
 * leave in the work area the register `after` and behind it what was there; where `after` is null, all that was there. */
static void call_filled(int filling, const uint8_t *log, size_t log_len, const uint8_t *replica, size_t replica_len,
                        size_t work_len, loans_verdict due, const uint8_t *after, const char *of) {
    uint8_t *work = work_len == 0 ? NULL : malloc(work_len), *due_work = work_len == 0 ? NULL : malloc(work_len);
    fill_work(work, work_len, filling, replica, replica_len);
    fill_work(due_work, work_len, filling, replica, replica_len);
    if (after != NULL) memcpy(due_work, after, REGISTER);
    loans_verdict verdict = loans_promote(log, log_len, replica, replica_len, work, work_len);
    expect_same("number of promote", verdict.number, due.number, of);
    expect_same("offset", verdict.offset, due.offset, of);
    expect_same("length of the code", verdict.code_length, due.code_length, of);
    expect(memcmp(verdict.code, due.code, sizeof due.code) == 0, "another code", of);
    if (work_len > 0) expect(memcmp(work, due_work, work_len) == 0, "other bytes in the work area", of);
    free(work);
    free(due_work);
}

/* The same with each filling. */
static void call_verdict(const uint8_t *log, size_t log_len, const uint8_t *replica, size_t replica_len, size_t work_len,
                         loans_verdict due, const uint8_t *after, const char *of) {
    for (int filling = 0; filling < FILLINGS; filling++)
        call_filled(filling, log, log_len, replica, replica_len, work_len, due, after, of);
}

/* The same, each area being a heap block of just its length; log and replica keep their bytes. */
static void promote_leaves(const void *log, size_t log_len, const uint8_t *replica, size_t replica_len, size_t work_len,
                           loans_verdict due, const uint8_t *after, const char *of) {
    uint8_t *read = copy_of(log, log_len), *lent = copy_of(replica, replica_len);
    call_verdict(read, log_len, lent, replica_len, work_len, due, after, of);
    if (log_len > 0) expect(memcmp(read, log, log_len) == 0, "the log was changed", of);
    if (replica_len > 0) expect(memcmp(lent, replica, replica_len) == 0, "the replica was changed", of);
    free(read);
    free(lent);
}

/* On a replica as long as a register, in work areas of just a register, one byte more, and many. */
static void promote_gives(const void *log, size_t log_len, const uint8_t *replica, loans_verdict due, const uint8_t *after,
                          const char *of) {
    const size_t lengths[] = {REGISTER, REGISTER + 1, 2 * REGISTER + 100};
    for (size_t i = 0; i < sizeof lengths / sizeof *lengths; i++)
        promote_leaves(log, log_len, replica, REGISTER, lengths[i], due, after, of);
}

/* A refusal with 23 or 15: every area keeps its bytes. */
static void promote_keeps(const void *log, size_t log_len, const uint8_t *replica, size_t replica_len, size_t work_len,
                          uint32_t number, const char *of) {
    promote_leaves(log, log_len, replica, replica_len, work_len, verdict_of(number), NULL, of);
}

/* Four codes whose order is not that of their lengths: 6, 42, 18 and 10 bytes. */
static const struct {
    const uint8_t *code;
    uint8_t length;
} four[] = {
    {shortest_code, sizeof shortest_code},
    {longest_code, sizeof longest_code},
    {composite_code, sizeof composite_code},
    {id_code, sizeof id_code},
};
enum { FOUR = sizeof four / sizeof *four };

/* A log of three records, where each of them starts and where the last ends, and the register behind each, by the layout. */
typedef struct {
    uint8_t log[200];
    size_t starts[4];
    uint8_t registers[4][REGISTER];
} three_records;

static three_records *new_three(void) {
    three_records *three = calloc(1, sizeof *three);
    if (three == NULL) abort();
    size_t *starts = three->starts;
    starts[1] = put_record(three->log, 1, ISSUE, composite_code, sizeof composite_code, 0x01020304);
    starts[2] = starts[1] + put_record(three->log + starts[1], 2, ISSUE, shortest_code, sizeof shortest_code, 7);
    starts[3] = starts[2] + put_record(three->log + starts[2], 3, RETURN, composite_code, sizeof composite_code, 0);
    put_place(three->registers[1], 0, composite_code, sizeof composite_code, 0x01020304);
    put_place(three->registers[2], 0, shortest_code, sizeof shortest_code, 7);
    put_place(three->registers[2], 1, composite_code, sizeof composite_code, 0x01020304);
    put_place(three->registers[3], 0, shortest_code, sizeof shortest_code, 7);
    for (uint32_t i = 0; i < 4; i++) put_last(three->registers[i], i);
    return three;
}

/* Yes: without records, and where the replica is what the log gives, also where the log says something twice. */
static void promote_yes(void) {
    three_records *three = new_three();
    uint8_t twice[400], wide_log[100], *wide_register = fresh_register();
    size_t end = three->starts[3];
    for (size_t i = 0; i < 4; i++)
        promote_gives(three->log, three->starts[i], three->registers[i], verdict_of(ISCC_OK), three->registers[i],
                      "records that were replayed");
    memcpy(twice, three->log, end);
    memcpy(twice + end, three->log, end);
    promote_gives(twice, 2 * end, three->registers[3], verdict_of(ISCC_OK), three->registers[3], "a log twice over");
    size_t length = put_record(wide_log, 1, ISSUE, wide_code, sizeof wide_code, SPENT);
    put_place(wide_register, 0, wide_code, sizeof wide_code, SPENT);
    put_last(wide_register, 1);
    promote_gives(wide_log, length, wide_register, verdict_of(ISCC_OK), wide_register, "a wide composite");
    free(three);
    free(wide_register);
}

/* Logs for whose sake the answer would be another one, if it came so far: whole, torn, and one for each number of a stop but
 * 21, with an area and its length each. */
static const struct {
    uint8_t bytes[60];
    size_t length;
    uint32_t number;
    size_t offset;
} some_logs[] = {
    {{0}, 0, ISCC_OK, 0},
    {{3}, 1, ISCC_LOG_TORN, 0},
    {{3, 0, 14, 0, 0, 0, 1, 0, 0, 0, 7, 0x30, 0, 0xff, 0, 0, 1, 4, 0, 10, 0, 0}, 22, ISCC_LOG_TORN, 17},
    {{0, 0, 0}, 3, ISCC_NOT_RECORD, 0},
    {{3, 0, 14, 0, 0, 0, 1, 0, 0, 0, 7, 0x30, 0, 0xff, 0, 0, 1, 0, 0, 0}, 20, ISCC_NOT_RECORD, 17},
    {{3, 0, 14, 0, 0, 0, 0, 0, 0, 0, 7, 0x30, 0, 0xff, 0, 0, 1}, 17, ISCC_NOT_RECORD, 0},
    {{1, 0, 10, 0, 0, 0, 7, 0x30, 0, 0xff, 0, 0, 1}, 13, ISCC_NOT_RECORD, 0},
    {{3, 0, 14, 0, 0, 0, 2, 0, 0, 0, 7, 0x30, 0, 0xff, 0, 0, 1}, 17, ISCC_NUMBER_GAP, 0},
    {{3, 0, 14, 0, 0, 0, 1, 0, 0, 0, 7, 0x30, 0, 0xff, 0, 0, 1, 4, 0, 10, 0, 0, 0, 3, 0x30, 0, 0xff, 0, 0, 1},
     30, ISCC_NUMBER_GAP, 17},
    {{3, 0, 14, 0, 0, 0, 1, 0, 0, 0, 7, 0x30, 0, 0xff, 0, 0, 1, 3, 0, 14, 0, 0, 0, 2, 0, 0, 0, 7, 0x30, 0, 0xff, 0, 0, 1},
     34, ISCC_ALREADY_OUT, 17},
    {{4, 0, 10, 0, 0, 0, 1, 0x30, 0, 0xff, 0, 0, 1}, 13, ISCC_NOT_OUT, 0},
    {{3, 0, 14, 0, 0, 0, 1, 0, 0, 0, 7, 0x30, 0, 0xff, 0, 0, 1, 4, 0, 10, 0, 0, 0, 2, 0x40, 0, 0xff, 0, 0, 1},
     30, ISCC_NOT_OUT, 17},
};
enum { LOGS = sizeof some_logs / sizeof *some_logs };

/* 23 comes before all else, and changes nothing: lengths, damages, with any log and any work area. */
static void promote_not_a_register(void) {
    const size_t lengths[] = {0, 1, LAST - COUNTS, LAST, REGISTER - 1, REGISTER + 1, 2 * REGISTER};
    const size_t works[] = {0, 1, REGISTER - 1, REGISTER, REGISTER + 1};
    uint8_t *damaged[4], *zeros = calloc(1, 2 * REGISTER);
    for (int i = 0; i < 4; i++) damaged[i] = fresh_register();
    if (zeros == NULL) abort();
    put_place(damaged[0], 0, wide_code, sizeof wide_code, 5); /* two codes exchanged */
    put_place(damaged[0], 1, shortest_code, sizeof shortest_code, 5);
    put_place(damaged[1], 1, shortest_code, sizeof shortest_code, 5); /* the first place free */
    put_place(damaged[2], 0, composite_code, sizeof composite_code, 5);
    put_count(damaged[2], 4, 1); /* what a unit of it would count */
    damaged[3][LAST - 1] = 1;    /* a borrower in a free place */
    for (size_t i = 0; i < LOGS; i++) {
        for (size_t j = 0; j < sizeof works / sizeof *works; j++) {
            for (size_t k = 0; k < sizeof lengths / sizeof *lengths; k++)
                promote_keeps(some_logs[i].bytes, some_logs[i].length, zeros, lengths[k], works[j], ISCC_NOT_REGISTER,
                              "a replica of another length");
            for (int k = 0; k < 4; k++)
                promote_keeps(some_logs[i].bytes, some_logs[i].length, damaged[k], REGISTER, works[j], ISCC_NOT_REGISTER,
                              "a damaged replica");
        }
    }
    for (int i = 0; i < 4; i++) free(damaged[i]);
    free(zeros);
}

/* 15 comes before anything of the log: before a stop, a tear, 37, 27 and yes. */
static void promote_short_work(void) {
    const size_t works[] = {0, 1, 42, LAST, REGISTER - 1};
    uint8_t *fresh = fresh_register(), *other = fresh_register();
    put_place(other, 0, longest_code, sizeof longest_code, 9);
    for (size_t i = 0; i < LOGS; i++) {
        for (size_t j = 0; j < sizeof works / sizeof *works; j++) {
            const uint8_t *log = some_logs[i].bytes;
            promote_keeps(log, some_logs[i].length, fresh, REGISTER, works[j], ISCC_AREA_TOO_SHORT, "a short work area");
            promote_keeps(log, some_logs[i].length, other, REGISTER, works[j], ISCC_AREA_TOO_SHORT, "and 37");
            put_last(fresh, 9);
            promote_keeps(log, some_logs[i].length, fresh, REGISTER, works[j], ISCC_AREA_TOO_SHORT, "and 27");
            put_last(fresh, 0);
        }
    }
    free(fresh);
    free(other);
}

/* A stop and a tear come before 37 and 27, whatever the replica has; the records before them are in the work area. */
static void promote_stops(void) {
    uint8_t log[100], *replicas[4], *after[2] = {fresh_register(), fresh_register()};
    put_place(after[1], 0, shortest_code, sizeof shortest_code, 7);
    put_last(after[1], 1);
    replicas[0] = copy_of(after[0], REGISTER); /* those that would be promoted without the rest of the log */
    replicas[1] = copy_of(after[1], REGISTER);
    replicas[2] = copy_of(after[1], REGISTER);
    put_last(replicas[2], 2);
    replicas[3] = copy_of(after[1], REGISTER);
    put_place(replicas[3], 1, longest_code, sizeof longest_code, 9);
    for (size_t i = 1; i < LOGS; i++) {
        size_t end = some_logs[i].length, offset = some_logs[i].offset;
        const uint8_t *left = after[offset != 0];
        memcpy(log, some_logs[i].bytes, end);
        memcpy(log + end, issue_and_return, 30); /* one record and a byte more, which nobody reads behind a stop */
        for (int j = 0; j < 4; j++) {
            loans_verdict due = verdict_at(some_logs[i].number, offset);
            promote_gives(log, end, replicas[j], due, left, "a stop or a tear");
            if (due.number == ISCC_LOG_TORN) continue;
            promote_gives(log, end - 1, replicas[j], verdict_at(ISCC_LOG_TORN, offset), left, "a stop that is not whole");
            promote_gives(log, end + 29, replicas[j], due, left, "a record behind a stop");
            promote_gives(log, end + 30, replicas[j], due, left, "a tear behind a stop");
        }
    }
    for (int i = 0; i < 4; i++) free(replicas[i]);
    free(after[0]);
    free(after[1]);
}

/* Three records, cut off behind each byte, beside each of their registers: the order of 36, 37 and 27. */
static void promote_every_cut(void) {
    three_records *three = new_three();
    uint8_t *renumbered = copy_of(three->registers[2], REGISTER);
    put_last(renumbered, 3);
    for (size_t cut = 0, whole = 0; cut <= three->starts[3]; cut++) {
        if (whole < 3 && cut == three->starts[whole + 1]) whole++;
        const uint8_t *left = three->registers[whole];
        for (size_t had = 0; had < 4; had++) {
            bool one_has = (whole == 2 || whole == 3) != (had == 2 || had == 3); /* the shortest code, which is the least */
            loans_verdict due = cut != three->starts[whole] ? verdict_at(ISCC_LOG_TORN, three->starts[whole])
                                : had == whole              ? verdict_of(ISCC_OK)
                                : one_has                   ? differs(shortest_code, sizeof shortest_code)
                                                            : differs(composite_code, sizeof composite_code);
            promote_gives(three->log, cut, three->registers[had], due, left, "three records, cut");
        }
        if (whole == 2)
            promote_gives(three->log, cut, renumbered,
                          cut == three->starts[2] ? verdict_of(ISCC_LAST_NUMBERS_DIFFER)
                                                  : verdict_at(ISCC_LOG_TORN, three->starts[2]),
                          left, "two records, cut, and another last number");
    }
    free(three);
    free(renumbered);
}

/* Four codes, each of them the same in both, in the log alone, in the replica alone, or with another borrower, in every
 * combination: the first in their order that is not the same is told, whatever the last numbers. */
static void promote_least(void) {
    enum { SAME, IN_LOG, IN_REPLICA, OTHER_BORROWER, KINDS };
    for (size_t combination = 0; combination < KINDS * KINDS * KINDS * KINDS; combination++) {
        uint8_t log[FOUR * LOANS_LOG_RECORD_MOST], *left = fresh_register(), *replica = fresh_register();
        const size_t kinds[FOUR] = {combination % 4, combination / 4 % 4, combination / 16 % 4, combination / 64};
        loans_verdict due = verdict_of(ISCC_OK);
        size_t length = 0, logged = 0, held = 0;
        uint32_t last = 0;
        for (size_t i = 0; i < FOUR; i++) {
            uint32_t borrower = 0x01020304 + 256 * (uint32_t)i, other = borrower ^ 1u << 8 * i; /* in another byte each time */
            if (kinds[i] != SAME && due.number == ISCC_OK) due = differs(four[i].code, four[i].length);
            if (kinds[i] != IN_REPLICA) put_place(left, logged++, four[i].code, four[i].length, borrower);
            if (kinds[i] != IN_LOG)
                put_place(replica, held++, four[i].code, four[i].length, kinds[i] == OTHER_BORROWER ? other : borrower);
        }
        for (size_t i = FOUR; i-- > 0;) /* in falling order: that of the records is no matter */
            if (kinds[i] != IN_REPLICA)
                length += put_record(log + length, ++last, ISSUE, four[i].code, four[i].length, 0x01020304 + 256 * (uint32_t)i);
        put_last(left, last);
        put_last(replica, last);
        promote_leaves(log, length, replica, REGISTER, REGISTER + 1, due, left, "four codes");
        put_last(replica, last + 1);
        if (due.number == ISCC_OK) due = verdict_of(ISCC_LAST_NUMBERS_DIFFER);
        promote_leaves(log, length, replica, REGISTER, REGISTER, due, left, "four codes, and another last number");
        free(left);
        free(replica);
    }
}

/* Borrowers are compared in all four bytes, and 0 is one as any other. */
static void promote_borrowers(void) {
    const uint32_t borrowers[] = {0, 1, 0x100, 0x10000, 0x01000000, 0x80000000, 0x01020304, 0x04030201, SPENT};
    enum { COUNT = sizeof borrowers / sizeof *borrowers };
    uint8_t log[LOANS_LOG_RECORD_MOST], *left = fresh_register(), *replica = fresh_register();
    put_last(left, 1);
    put_last(replica, 1);
    for (size_t i = 0; i < COUNT; i++) {
        size_t length = put_record(log, 1, ISSUE, longest_code, sizeof longest_code, borrowers[i]);
        put_place(left, 0, longest_code, sizeof longest_code, borrowers[i]);
        for (size_t j = 0; j < COUNT; j++) {
            put_place(replica, 0, longest_code, sizeof longest_code, borrowers[j]);
            loans_verdict due = i == j ? verdict_of(ISCC_OK) : differs(longest_code, sizeof longest_code);
            promote_leaves(log, length, replica, REGISTER, REGISTER, due, left, "two borrowers");
        }
    }
    free(left);
    free(replica);
}

/* 27 where only the last numbers differ, in any byte: with codes out, with none any more, and where there never was one. */
static void promote_last_numbers(void) {
    const uint32_t others[] = {0, 1, 2, 3, 0x100, 0x0102, 0x10000, 0x02000000, 0x80000002, SPENT};
    uint8_t *back = fresh_register(), *none = fresh_register();
    three_records *three = new_three();
    put_last(back, 2);
    for (size_t i = 0; i < sizeof others / sizeof *others; i++) {
        uint8_t *replica = copy_of(back, REGISTER), *held = copy_of(three->registers[2], REGISTER);
        loans_verdict differ = verdict_of(ISCC_LAST_NUMBERS_DIFFER), yes = verdict_of(ISCC_OK);
        put_last(replica, others[i]);
        put_last(held, others[i]);
        promote_gives(issue_and_return, 54, replica, others[i] == 2 ? yes : differ, back, "an issue and its return");
        promote_gives(NULL, 0, replica, others[i] == 0 ? yes : differ, none, "no records");
        promote_gives(three->log, three->starts[2], held, others[i] == 2 ? yes : differ, three->registers[2], "two codes");
        free(replica);
        free(held);
    }
    free(back);
    free(none);
    free(three);
}

/* All places used: the same, another borrower or one code less in the first, a middle and the last place; and 21. */
static void promote_full(void) {
    const size_t places[] = {0, 100, PLACES - 1};
    uint8_t *log = malloc((PLACES + 1) * 21), *full = fresh_register(), code[10];
    char text[ISCC_TEXT_AREA + 1];
    size_t length = 0, last = 0;
    if (log == NULL) abort();
    for (size_t i = 0; i <= PLACES; i++) {
        code_of_row(i, code, text);
        last = length;
        length += put_record(log + length, (uint32_t)i + 1, ISSUE, code, sizeof code, (uint32_t)i);
        if (i < PLACES) put_place(full, i, code, sizeof code, (uint32_t)i);
    }
    put_last(full, PLACES);
    call_filled(REPLICA, log, last, full, REGISTER, REGISTER, verdict_of(ISCC_OK), full, "256 codes");
    call_filled(FIVE_A, log, length, full, REGISTER, REGISTER + 1, verdict_at(ISCC_ALL_OUT, last), full, "257 codes");
    call_filled(ONES, log, length - 1, full, REGISTER, REGISTER, verdict_at(ISCC_LOG_TORN, last), full, "256 and a tear");
    for (size_t i = 0; i < sizeof places / sizeof *places; i++) {
        uint8_t *replica = copy_of(full, REGISTER);
        code_of_row(places[i], code, text);
        put_place(replica, places[i], code, sizeof code, 1000);
        call_filled(FIVE_A, log, last, replica, REGISTER, REGISTER, differs(code, 10), full, "another borrower");
        close_gap(replica, places[i]);
        call_filled(REPLICA, log, last, replica, REGISTER, REGISTER, differs(code, 10), full, "one of 256 is missing");
        free(replica);
    }
    promote_keeps(log, length, full, REGISTER, REGISTER - 1, ISCC_AREA_TOO_SHORT, "15 before 21");
    free(log);
    free(full);
}

/* A null pointer with length 0 for each area, alone and with the others. */
static void promote_null(void) {
    uint8_t *fresh = fresh_register();
    promote_gives(NULL, 0, fresh, verdict_of(ISCC_OK), fresh, "null log");
    promote_keeps(issue_and_return, 54, NULL, 0, REGISTER, ISCC_NOT_REGISTER, "null replica");
    promote_keeps(issue_and_return, 54, fresh, REGISTER, 0, ISCC_AREA_TOO_SHORT, "null work area");
    promote_keeps(NULL, 0, fresh, REGISTER, 0, ISCC_AREA_TOO_SHORT, "null log, null work area");
    promote_keeps(NULL, 0, NULL, 0, REGISTER, ISCC_NOT_REGISTER, "null log, null replica");
    promote_keeps(issue_and_return, 54, NULL, 0, 0, ISCC_NOT_REGISTER, "null replica, null work area");
    promote_keeps(NULL, 0, NULL, 0, 0, ISCC_NOT_REGISTER, "nothing but nulls");
    free(fresh);
}

/* Log and replica may overlap, since both are only read: the end of the log is the start of the replica, the end of the replica
 * the start of the log, and one lies within the other. */
static void promote_overlap(void) {
    enum { SHARED = 2, AHEAD = 17 - SHARED };
    uint8_t *block = calloc(1, 2 * REGISTER), *replica = block + AHEAD, *log, *fresh = fresh_register(), *left;
    if (block == NULL) abort();
    /* The shortest code ends in 00 01, and a count of one code out is these two bytes. */
    put_place(replica, 0, shortest_code, sizeof shortest_code, 7);
    put_last(replica, 1);
    left = copy_of(replica, REGISTER);
    put_record(block, 1, ISSUE, shortest_code, sizeof shortest_code, 7);
    expect(memcmp(replica, left, REGISTER) == 0, "these two do not fit", "log before replica");
    call_verdict(block, 17, replica, REGISTER, REGISTER + 1, verdict_of(ISCC_OK), left, "log before replica");
    call_verdict(block, 16, replica, REGISTER, REGISTER, verdict_at(ISCC_LOG_TORN, 0), fresh, "torn log before replica");
    block[10] = 8; /* the borrower's last byte */
    put_place(left, 0, shortest_code, sizeof shortest_code, 8);
    call_verdict(block, 17, replica, REGISTER, REGISTER, differs(shortest_code, 6), left, "log of another borrower");
    free(left);

    /* A last number ends in 3, the tag of an issue. */
    memset(block, 0, 2 * REGISTER);
    replica = block;
    log = block + REGISTER - 1;
    put_place(replica, 0, shortest_code, sizeof shortest_code, 7);
    put_place(replica, 1, longest_code, sizeof longest_code, 8);
    put_place(replica, 2, composite_code, sizeof composite_code, 9);
    put_last(replica, 3);
    left = copy_of(replica, REGISTER);
    size_t length = put_record(log, 1, ISSUE, longest_code, sizeof longest_code, 8);
    length += put_record(log + length, 2, ISSUE, composite_code, sizeof composite_code, 9);
    length += put_record(log + length, 3, ISSUE, shortest_code, sizeof shortest_code, 7);
    expect(memcmp(replica, left, REGISTER) == 0, "these two do not fit", "log behind replica");
    call_verdict(log, length, replica, REGISTER, REGISTER + 1, verdict_of(ISCC_OK), left, "log behind replica");
    call_verdict(replica, REGISTER, replica, REGISTER, REGISTER, verdict_at(ISCC_NOT_RECORD, 0), fresh, "the same area");
    call_verdict(replica + 20, 1, replica, REGISTER, REGISTER, verdict_at(ISCC_LOG_TORN, 0), fresh, "log within replica");
    free(left);
    free(block);
    free(fresh);
}

/* Nothing is written to log or replica, not even the bytes that are there: these lie where nobody may write. */
static void promote_only_read(void) {
    static const uint8_t replica[REGISTER] = {[LAST + 3] = 2}, wrong[REGISTER] = {[0] = 1};
    uint8_t *issued = fresh_register();
    put_place(issued, 0, composite_code, sizeof composite_code, 258);
    put_last(issued, 1);
    call_verdict(issue_and_return, 54, replica, REGISTER, REGISTER, verdict_of(ISCC_OK), replica, "areas to be read");
    call_verdict(issue_and_return, 53, replica, REGISTER, REGISTER, verdict_at(ISCC_LOG_TORN, 29), issued, "a tear to be read");
    call_verdict(issue_and_return, 29, replica, REGISTER, REGISTER, differs(composite_code, 18), issued, "a lagging log");
    call_verdict(issue_and_return, 54, wrong, REGISTER, REGISTER, verdict_of(ISCC_NOT_REGISTER), NULL, "damage to be read");
    free(issued);
}

/* A replica that took a live call skips the record of that number, and no replay tells it. Here it is told. */
static void promote_two_sources(void) {
    three_records *three = new_three();
    uint8_t *replica = copy_of(three->registers[1], REGISTER);
    issue_takes(replica, 1, AN_ID, 5, id_code, sizeof id_code);
    uint8_t *before = copy_of(replica, REGISTER);
    replay_leaves(three->log, three->starts[2], replica, REGISTER, ran, before, "a record is skipped");
    promote_gives(three->log, three->starts[2], replica, differs(shortest_code, sizeof shortest_code), three->registers[2],
                  "the record that was skipped");
    free(before);
    free(replica);
    free(three);
}

/* Nine labels as they were typed in the drill that failed, their units in any order, and the composite that each makes. */
static const struct {
    const char *units;
    const char *composite;
} nine[] = {
    {"gaaqwketqbo2qecu-iaa6xiv7lxaq2gts", "KUAAWKETQBO2QECU5ORL6XOBBUNHE"},
    {"iaavizdreaumro5n-gaatho3sqsnsbaab-aaazxbo7m2amyknu", "KYCJXBO7M2AMYKNUGO5XFBE3ECAACVDEOEQCRSF3VU"},
    {"eea3zowykhmqejqs-iaazcfhb6v4cytrs-gaa5udlgacvdgnrp", "KEA3ZOWYKHMQEJQS3IGWMAFKGM3C7EIU4H2XQLCOGI"},
    {"iaa4ifitgux6cwdd-gaatubc5wb3rty7r", "KUADUBC5WB3RTY7RYQKRGNJP4FMGG"},
    {"gaauxtqfwv22fsx2-eaa6llujvxrkyrcv-caaw7z3kdyjlzugy-iaa5nnvqzthcygdj",
     "KABW7Z3KDYJLZUGY4WXITLPCVRCFKS6OAW2XLIWK7LLLNMGMZYWBQ2I"},
    {"iaa5kt66odpbssko-aaatckeyrsjaoub3-gaaz7p5dlshpdwkv", "KYCDCKEYRSJAOUB3T672GXEO6HMVLVKP3ZYN4GKJJY"},
    {"iaazt2ymrkjkqn67-ciatjjk6yjyaxmrk-eias7wx6new55rna-gaa7ky5p54ysw4y6-aaa32uwr5ftxglyc",
     "KID32UWR5FTXGLYCGSSV5QTQBOZCUL627ZUS3XWFUD2WHL7PGEVXGHUZ5MGIVEVIG7PQ"},
    {"gaa66crnnkzvputd-iaaxh2jmlbd7gakn", "KUAO6CRNNKZVPUTDOPUSYWCH6MAU2"},
    {"gaatberypscybcwu-iaa5gyqjztfcafca-eeaqcvq6nep4xh4h", "KEAQCVQ6NEP4XH4HGCJDQ7EFQCFNJU3CBHGMUIAUIA"},
};
enum { NINE = sizeof nine / sizeof *nine, NINE_LOG = NINE * LOANS_LOG_RECORD_MOST };

/* The drill at the counter: each label is issued as it was typed and its record logged. */
typedef struct {
    uint8_t counter[REGISTER], log[NINE_LOG];
    uint8_t codes[NINE][ISCC_CODE_AREA];
    size_t lengths[NINE], starts[NINE + 1];
    uint8_t registers[NINE + 1][REGISTER]; /* the counter's behind each change */
} drill;

static uint32_t drill_borrower(size_t index) {
    return 1200 + (uint32_t)index;
}

static drill *new_drill(void) {
    drill *d = calloc(1, sizeof *d);
    if (d == NULL) abort();
    for (size_t i = 0; i < NINE; i++) {
        const uint8_t *text = (const uint8_t *)nine[i].units;
        size_t length = strlen(nine[i].units);
        loans_changed changed = loans_issue(text, length, drill_borrower(i), d->counter, REGISTER);
        iscc_written code = iscc_code(text, length, d->codes[i], ISCC_CODE_AREA);
        iscc_written record = loans_log_issue(d->log, NINE_LOG, d->starts[i], changed.record_number, d->codes[i], code.length,
                                              drill_borrower(i));
        expect_same("record number", changed.record_number, i + 1, nine[i].units);
        expect_same("length of the record", record.length, 11 + code.length, nine[i].units);
        d->lengths[i] = code.length;
        d->starts[i + 1] = d->starts[i] + record.length;
        memcpy(d->registers[i + 1], d->counter, REGISTER);
    }
    return d;
}

/* The least of the codes from this index on, by their bytes: those behind each code are zeros. */
static loans_verdict least_from(const drill *d, size_t index) {
    size_t least = index;
    for (size_t i = index + 1; i < NINE; i++)
        if (memcmp(d->codes[i], d->codes[least], ISCC_CODE_AREA) < 0) least = i;
    return differs(d->codes[least], d->lengths[least]);
}

/* A composite typed otherwise than the unit list: scheme and letters in turn of either case, hyphens and blanks. */
static void issue_otherwise(uint8_t *area, size_t index) {
    char typed[200] = " \tiSCc:";
    size_t length = strlen(typed);
    for (const char *at = nine[index].composite; *at != 0; at++) {
        typed[length++] = (at - nine[index].composite) % 2 == 0 || *at < 'A' ? *at : (char)(*at + 'a' - 'A');
        if ((at - nine[index].composite) % 7 == 6) typed[length++] = '-';
    }
    typed[length++] = '\n';
    loans_changed changed = loans_issue((const uint8_t *)typed, length, drill_borrower(index), area, REGISTER);
    expect_same("number of issue", changed.number, ISCC_OK, nine[index].composite);
}

/* Nine issues typed as unit lists are logged. A replica that holds the same loans is promoted, however they were typed there
 * and in whatever order; one that still lacks some is not, and the least of those is told. */
static void promote_drill(void) {
    drill *d = new_drill();
    size_t end = d->starts[NINE];
    uint8_t *same = fresh_register(), *reversed = fresh_register();
    for (size_t i = 0; i < NINE; i++) issue_otherwise(same, i);
    for (size_t i = NINE; i-- > 0;) issue_otherwise(reversed, i);
    promote_gives(d->log, end, same, verdict_of(ISCC_OK), d->counter, "the same loans, typed otherwise");
    promote_gives(d->log, end, reversed, verdict_of(ISCC_OK), d->counter, "the same loans in falling order");
    for (size_t had = 0; had < NINE; had++) {
        uint8_t *replica = fresh_register();
        for (size_t i = 0; i < had; i++) issue_otherwise(replica, i);
        promote_gives(d->log, end, replica, least_from(d, had), d->counter, "some still missing");
        replay_leaves(d->log, end, replica, REGISTER, ran, d->counter, "brought up to the log");
        promote_gives(d->log, end, replica, verdict_of(ISCC_OK), d->counter, "brought up to the log");
        free(replica);
    }
    free(d);
    free(same);
    free(reversed);
}

/* The same log torn off at every byte inside its ninth record: 36 and where that starts, whatever the replica holds. */
static void promote_drill_torn(void) {
    drill *d = new_drill();
    const size_t ninth = d->starts[NINE - 1], held[] = {0, NINE - 1, NINE};
    const uint8_t *eight = d->registers[NINE - 1];
    expect(d->starts[NINE] - ninth > 11, "no record", "the ninth");
    for (size_t cut = ninth + 1; cut < d->starts[NINE]; cut++)
        for (size_t i = 0; i < sizeof held / sizeof *held; i++)
            promote_leaves(d->log, cut, d->registers[held[i]], REGISTER, REGISTER, verdict_at(ISCC_LOG_TORN, ninth), eight,
                           "torn inside the ninth");
    promote_gives(d->log, ninth, eight, verdict_of(ISCC_OK), eight, "cut before the ninth, with eight");
    promote_gives(d->log, ninth, d->counter, least_from(d, NINE - 1), eight, "cut before the ninth, with nine");
    free(d);
}

#endif
