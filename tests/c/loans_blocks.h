/* The loans register as a counter uses it: blocks of console_test over loans.h. */
#ifndef LOANS_BLOCKS_H
#define LOANS_BLOCKS_H

#include "expect.h"
#include "loans.h"

/* The bytes of a register, of its counts, of a place and of the last number, which starts at LAST, once more: the header's
 * numbers are held against these. */
enum { REGISTER = 12308, COUNTS = 16, PLACES = 256, PLACE = 48, LAST = 12304, LAST_BYTES = 4 };
_Static_assert(LOANS_REGISTER_AREA == REGISTER && LOANS_COUNTS_BYTES == COUNTS, "the layout");
_Static_assert(LOANS_LAST_NUMBER_OFFSET == LAST && LAST + LAST_BYTES == REGISTER, "the last number");
_Static_assert(LOANS_PLACES == PLACES && LOANS_PLACE_BYTES == PLACE, "the places");

/* One code typed in three ways, and what a place holds of it. */
#define UNITS "GAAW2PRCRS5LNVZV-IAAUVACQKXE3V44W"
#define SMALL_UNITS " iscc:iaauvacqkxe3v44w-gaaw2-prcrs5lnvzv\n"
#define COMPOSITE "ISCC:KUAG2PRCRS5LNVZVJKAFAVOJXLZZM"
static const uint8_t composite_code[] = {0x55, 0x00, 0x6d, 0x3e, 0x22, 0x8c, 0xba, 0xb6, 0xd7,
                                         0x35, 0x4a, 0x80, 0x50, 0x55, 0xc9, 0xba, 0xf3, 0x96};

/* The shortest code, and the longest: 6 and 42 bytes. */
#define SHORTEST "gaap6aaaae"
static const uint8_t shortest_code[] = {0x30, 0x00, 0xff, 0x00, 0x00, 0x01};
#define LONGEST "KADQAAAAAAAAAAAAAAAAAAAAAAAAAAAAAAAAAAAAAAAAAAAAAAAAAAAAAAAAAAAAAAAA"
static const uint8_t longest_code[42] = {0x50, 0x07};

/* A wide composite typed in two ways, and its bytes. */
#define WIDE "ISCC:K4AAAAICAMCAKBQHBAEQUCYMBUHA6EARCIJRIFIWC4MBSGQ3DQOR4HY"
#define SMALL_WIDE " iscc:k4aaaaicamcakbqhbaeq-ucymbuha6-earcijrifiwc4mbsgq3dqor4hy-\n"
static const uint8_t wide_code[34] = {0x57, 0x00, 0x00, 0x01, 0x02, 0x03, 0x04, 0x05, 0x06, 0x07, 0x08, 0x09,
                                      0x0a, 0x0b, 0x0c, 0x0d, 0x0e, 0x0f, 0x10, 0x11, 0x12, 0x13, 0x14, 0x15,
                                      0x16, 0x17, 0x18, 0x19, 0x1a, 0x1b, 0x1c, 0x1d, 0x1e, 0x1f};

/* An ID and its bytes. */
#define AN_ID "MAAGZTFQTTVIZPJR"
static const uint8_t id_code[] = {0x60, 0x00, 0x6c, 0xcc, 0xb0, 0x9c, 0xea, 0x8c, 0xbd, 0x31};

typedef enum { ISSUE, RETURN, ASK } loans_call;

/* The greatest record number. */
#define SPENT 0xffffffffu

/* What a call tells: an issue and a return no borrower and no looks, a question no record number. */
typedef struct {
    uint32_t number;
    uint32_t borrower;
    uint32_t looks;
    uint32_t record_number;
} loans_told;

static uint8_t *fresh_register(void) {
    uint8_t *area = calloc(1, REGISTER);
    if (area == NULL) abort();
    return area;
}

/* The last number of a register. */
static uint32_t last_of(const uint8_t *area) {
    uint32_t last = 0;
    for (int i = 0; i < LAST_BYTES; i++) last = last << 8 | area[LAST + i];
    return last;
}

static void put_last(uint8_t *area, uint32_t last) {
    for (int i = 0; i < LAST_BYTES; i++) area[LAST + i] = (uint8_t)(last >> (24 - 8 * i));
}

static size_t offset_of(size_t place) {
    return COUNTS + place * PLACE;
}

/* The number that stands there in two bytes, high byte first. */
static void put_count(uint8_t *area, size_t index, size_t count) {
    area[2 * index] = (uint8_t)(count >> 8);
    area[2 * index + 1] = (uint8_t)count;
}

/* The counts as they must be of the places that are not free, counted once more here: the upper half of a code's first byte is
 * its main type. Of an area that is no register they are those of its length bytes, so that nothing else is wrong with it. */
static void count_places(uint8_t *area) {
    size_t counts[COUNTS / 2] = {0};
    for (size_t place = 0; place < PLACES; place++) {
        const uint8_t *bytes = area + offset_of(place);
        if (bytes[0] == 0) continue;
        counts[0]++;
        if (bytes[1] >> 4 < 7) counts[1 + (bytes[1] >> 4)]++;
    }
    for (size_t i = 0; i < COUNTS / 2; i++) put_count(area, i, counts[i]);
}

static void free_place(uint8_t *area, size_t place) {
    memset(area + offset_of(place), 0, PLACE);
    count_places(area);
}

/* A place as it must be, and counts that go with it: written here by the layout, not by a call. */
static void put_place(uint8_t *area, size_t place, const uint8_t *code, uint8_t length, uint32_t borrower) {
    uint8_t *bytes = area + offset_of(place);
    memset(bytes, 0, PLACE);
    bytes[0] = length;
    memcpy(bytes + 1, code, length);
    for (int i = 0; i < 4; i++) bytes[44 + i] = (uint8_t)(borrower >> (24 - 8 * i));
    count_places(area);
}

/* Whether a code comes before the code of a place, is the same or comes behind it: below 0, 0 or above 0. */
static int compared(const uint8_t *code, size_t length, const uint8_t *place) {
    size_t shorter = length < place[0] ? length : place[0];
    int order = memcmp(code, place + 1, shorter);
    return order != 0 ? order : (int)length - (int)place[0];
}

/* How many places a question about a code has to look at: halved once more here. */
static uint32_t looks_for(const uint8_t *area, const uint8_t *code, size_t length) {
    size_t first = 0, count = 0;
    uint32_t looks = 0;
    while (count < PLACES && area[offset_of(count)] != 0) count++;
    while (count > 0) {
        size_t before = count / 2, middle = first + before;
        int order = compared(code, length, area + offset_of(middle));
        looks++;
        if (order == 0) break;
        if (order > 0) first = middle + 1;
        count = order < 0 ? before : count - before - 1;
    }
    return looks;
}

/* The same for a code as it is typed. */
static uint32_t looks_for_typed(const uint8_t *area, const char *typed) {
    uint8_t code[ISCC_CODE_AREA];
    iscc_written written = iscc_code((const uint8_t *)typed, strlen(typed), code, sizeof code);
    expect_same("number of code", written.number, ISCC_OK, typed);
    return looks_for(area, code, written.length);
}

/* The answer that has a number alone: all but success and 22 of a question. */
static loans_told only(uint32_t number) {
    return (loans_told){.number = number};
}

/* The bare call. */
static loans_told answer_of(loans_call call, const uint8_t *text, size_t text_len, uint32_t borrower, uint8_t *area,
                            size_t area_len) {
    if (call == ASK) {
        loans_holder held = loans_ask(text, text_len, area, area_len);
        return (loans_told){.number = held.number, .borrower = held.borrower, .looks = held.looks};
    }
    loans_changed changed = call == ISSUE ? loans_issue(text, text_len, borrower, area, area_len)
                                          : loans_return(text, text_len, area, area_len);
    return (loans_told){.number = changed.number, .record_number = changed.record_number};
}

/* A call that must answer `due` and leave `after` in the area, each area being a heap block of just its length. */
static void call_leaves(loans_call call, const void *text, size_t text_len, uint32_t borrower, uint8_t *area, size_t area_len,
                        loans_told due, const uint8_t *after, const char *of) {
    const char *numbers[] = {"number of issue", "number of return", "number of ask"};
    uint8_t *typed = copy_of(text, text_len);
    loans_told answer = answer_of(call, typed, text_len, borrower, area, area_len);
    expect_same(numbers[call], answer.number, due.number, of);
    expect_same("borrower", answer.borrower, due.borrower, of);
    expect_same("looks", answer.looks, due.looks, of);
    expect_same("record number", answer.record_number, due.record_number, of);
    if (area_len > 0) expect(memcmp(area, after, area_len) == 0, "other bytes in the register", of);
    if (text_len > 0) expect(memcmp(typed, text, text_len) == 0, "the text was changed", of);
    free(typed);
}

/* A call that leaves every byte of the area. */
static void call_keeps(loans_call call, const void *text, size_t text_len, uint8_t *area, size_t area_len, loans_told due,
                       const char *of) {
    uint8_t *before = copy_of(area, area_len);
    call_leaves(call, text, text_len, 0x5a5a5a5a, area, area_len, due, before, of);
    free(before);
}

/* The places from this one on move one up, and it holds the loan; those behind all used ones are zeros. */
static void make_room(uint8_t *area, size_t place, const uint8_t *code, uint8_t length, uint32_t borrower) {
    memmove(area + offset_of(place + 1), area + offset_of(place), (PLACES - 1 - place) * PLACE);
    put_place(area, place, code, length, borrower);
}

/* The places behind this one move one down, and zeros come behind them. */
static void close_gap(uint8_t *area, size_t place) {
    memmove(area + offset_of(place), area + offset_of(place + 1), (PLACES - 1 - place) * PLACE);
    free_place(area, PLACES - 1);
}

/* The counts of an area of just its length, which keeps its bytes. */
static void counted(const uint8_t *area, size_t area_len, loans_counted due, const char *of) {
    uint8_t *lent = copy_of(area, area_len);
    loans_counted answer = loans_counts(lent, area_len);
    expect_same("number of counts", answer.number, due.number, of);
    expect_same("out", answer.out, due.out, of);
    expect_same("meta", answer.meta, due.meta, of);
    expect_same("semantic", answer.semantic, due.semantic, of);
    expect_same("content", answer.content, due.content, of);
    expect_same("data", answer.data, due.data, of);
    expect_same("instance", answer.instance, due.instance, of);
    expect_same("iscc", answer.iscc, due.iscc, of);
    expect_same("id", answer.id, due.id, of);
    if (area_len > 0) expect(memcmp(lent, area, area_len) == 0, "other bytes in the register", of);
    free(lent);
}

static void not_counted(const uint8_t *area, size_t area_len, const char *of) {
    counted(area, area_len, (loans_counted){.number = ISCC_NOT_REGISTER}, of);
}

/* An issue that is accepted: this is its place in the order, and its number is the next. */
static void issue_takes(uint8_t *area, size_t place, const char *typed, uint32_t borrower, const uint8_t *code, uint8_t length) {
    loans_told due = {.record_number = last_of(area) + 1};
    uint8_t *after = copy_of(area, REGISTER);
    make_room(after, place, code, length, borrower);
    put_last(after, due.record_number);
    call_leaves(ISSUE, typed, strlen(typed), borrower, area, REGISTER, due, after, typed);
    free(after);
}

static void return_closes(uint8_t *area, size_t place, const char *typed) {
    loans_told due = {.record_number = last_of(area) + 1};
    uint8_t *after = copy_of(area, REGISTER);
    close_gap(after, place);
    put_last(after, due.record_number);
    call_leaves(RETURN, typed, strlen(typed), 0, area, REGISTER, due, after, typed);
    free(after);
}

static void issue_refused(uint8_t *area, const char *typed, uint32_t number) {
    call_keeps(ISSUE, typed, strlen(typed), area, REGISTER, only(number), typed);
}

static void has(uint8_t *area, const char *typed, uint32_t borrower) {
    loans_told due = {.borrower = borrower, .looks = looks_for_typed(area, typed)};
    call_keeps(ASK, typed, strlen(typed), area, REGISTER, due, typed);
}

static void not_found(uint8_t *area, const char *typed) {
    loans_told due = {.number = ISCC_NOT_OUT, .looks = looks_for_typed(area, typed)};
    call_keeps(ASK, typed, strlen(typed), area, REGISTER, due, typed);
}

static void return_refused(uint8_t *area, const char *typed, uint32_t number) {
    call_keeps(RETURN, typed, strlen(typed), area, REGISTER, only(number), typed);
}

static void not_out(uint8_t *area, const char *typed) {
    return_refused(area, typed, ISCC_NOT_OUT);
    not_found(area, typed);
}

/* All three calls refuse with this number. */
static void all_refuse(const void *text, size_t text_len, uint8_t *area, size_t area_len, uint32_t number, const char *of) {
    for (loans_call call = ISSUE; call <= ASK; call++)
        call_keeps(call, text, text_len, area, area_len, only(number), of);
}

/* One loan from its issue to its return, each time typed another way. */
static void loans_one_code(void) {
    const uint32_t borrowers[] = {0, 1, 0x01020304, 0x80000000, 0xffffffff};
    uint8_t *area = fresh_register();
    for (size_t i = 0; i < sizeof borrowers / sizeof *borrowers; i++) {
        not_out(area, COMPOSITE);
        issue_takes(area, 0, UNITS, borrowers[i], composite_code, sizeof composite_code);
        has(area, UNITS, borrowers[i]);
        has(area, SMALL_UNITS, borrowers[i]);
        has(area, COMPOSITE, borrowers[i]);
        issue_refused(area, UNITS, ISCC_ALREADY_OUT);
        issue_refused(area, SMALL_UNITS, ISCC_ALREADY_OUT);
        not_out(area, "GAAW2PRCRS5LNVZV"); /* a unit of it is another code */
        return_closes(area, 0, SMALL_UNITS);
        not_out(area, UNITS);
    }
    free(area);
}

/* The whole register, byte for byte: codes of the least and the greatest length go in before all others, between two and
 * behind all, and come back from there. */
static void loans_places(void) {
    uint8_t *area = fresh_register();
    issue_takes(area, 0, COMPOSITE, 0x01000000, composite_code, sizeof composite_code);
    issue_takes(area, 0, SHORTEST, 0x00010000, shortest_code, sizeof shortest_code);
    issue_takes(area, 1, LONGEST, 0x00000100, longest_code, sizeof longest_code);
    issue_takes(area, 3, WIDE, 5, wide_code, sizeof wide_code);
    has(area, SHORTEST, 0x00010000);
    has(area, LONGEST, 0x00000100);
    has(area, UNITS, 0x01000000);
    return_closes(area, 1, LONGEST);
    has(area, SHORTEST, 0x00010000);
    has(area, UNITS, 0x01000000);
    return_closes(area, 0, SHORTEST);
    issue_takes(area, 0, LONGEST, 7, longest_code, sizeof longest_code);
    return_closes(area, 2, WIDE);
    issue_takes(area, 0, SHORTEST, 8, shortest_code, sizeof shortest_code);
    has(area, LONGEST, 7);
    return_closes(area, 2, COMPOSITE);
    return_closes(area, 0, SHORTEST);
    return_closes(area, 0, LONGEST);
    expect(all_are(area, LAST, 0), "not empty again", "all came back");
    expect_same("last number", last_of(area), 12, "all came back");
    free(area);
}

/* The code with this index of a row that differs in the last two bytes alone, and its text with a NUL behind. */
static void code_of_row(size_t index, uint8_t code[10], char text[ISCC_TEXT_AREA + 1]) {
    const uint8_t unit[10] = {0x30, 0x01};
    memcpy(code, unit, sizeof unit);
    code[8] = (uint8_t)(index >> 8);
    code[9] = (uint8_t)index;
    iscc_written answer = iscc_text(code, 10, (uint8_t *)text, ISCC_TEXT_AREA);
    text[answer.length] = 0;
}

static void issue_row(uint8_t *area, size_t index, size_t place) {
    uint8_t code[10];
    char text[ISCC_TEXT_AREA + 1];
    code_of_row(index, code, text);
    issue_takes(area, place, text, (uint32_t)index, code, sizeof code);
}

/* All places, one code more, and room again once a code is back: taken up before all others, in its old place and behind all. */
static void loans_full(void) {
    const size_t back[] = {0, 100, PLACES - 1};
    uint8_t *full = fresh_register(), code[10];
    char text[ISCC_TEXT_AREA + 1];
    for (size_t i = 0; i < PLACES; i++) issue_row(full, i, i);
    for (size_t i = 0; i < sizeof back / sizeof *back; i++) {
        for (int j = 0; j < 3; j++) {
            uint8_t *area = copy_of(full, REGISTER);
            issue_refused(area, COMPOSITE, ISCC_ALL_OUT);
            issue_refused(area, SHORTEST, ISCC_ALL_OUT);
            not_out(area, COMPOSITE);
            not_out(area, SHORTEST);
            code_of_row(back[i], code, text);
            issue_refused(area, text, ISCC_ALREADY_OUT);
            has(area, text, (uint32_t)back[i]);
            return_closes(area, back[i], text);
            not_out(area, text);
            if (j == 0) issue_takes(area, 0, SHORTEST, 9, shortest_code, sizeof shortest_code);
            if (j == 1) issue_row(area, back[i], back[i]);
            if (j == 2) issue_row(area, PLACES, PLACES - 1);
            issue_refused(area, COMPOSITE, ISCC_ALL_OUT);
            free(area);
        }
    }
    free(full);
}

/* A row issued from its end, and the odd ones before the even ones: every issue moves places, and the bytes are those of the
 * row issued from its start. */
static void loans_any_order(void) {
    uint8_t *rising = fresh_register(), *falling = fresh_register(), *mixed = fresh_register();
    for (size_t i = 0; i < PLACES; i++) issue_row(rising, i, i);
    for (size_t i = PLACES; i-- > 0;) issue_row(falling, i, 0);
    for (size_t i = 0; i < PLACES / 2; i++) issue_row(mixed, 2 * i + 1, i);
    for (size_t i = 0; i < PLACES / 2; i++) issue_row(mixed, 2 * i, 2 * i);
    expect(memcmp(rising, falling, REGISTER) == 0, "another register", "a row from its end");
    expect(memcmp(rising, mixed, REGISTER) == 0, "another register", "odd ones first");
    free(rising);
    free(falling);
    free(mixed);
}

/* A register of so many codes: every code that is out is asked for, and such as come before, between and behind them. Each
 * answer has the looks of the halving above, and the most of them are so many. */
static void looks_in(size_t count, uint32_t most) {
    uint8_t *area = fresh_register(), code[10];
    char text[ISCC_TEXT_AREA + 1];
    uint32_t seen = 0;
    for (size_t i = 0; i < count; i++) {
        code_of_row(2 * i + 1, code, text);
        put_place(area, i, code, sizeof code, (uint32_t)i);
    }
    for (size_t i = 0; i <= 2 * count; i++) {
        code_of_row(i, code, text);
        if (i % 2 == 1) has(area, text, (uint32_t)(i / 2));
        else not_out(area, text);
        uint32_t looks = looks_for(area, code, sizeof code);
        if (looks > seen) seen = looks;
    }
    expect_same("most looks", seen, most, "a row of codes");
    free(area);
}

/* Nobody needs more than 9. */
static void loans_looks(void) {
    looks_in(0, 0);
    looks_in(1, 1);
    looks_in(2, 2);
    looks_in(3, 2);
    looks_in(16, 5);
    looks_in(255, 8);
    looks_in(256, 9);
}

/* By hand, in a register of four: the middle is place 2, then 1 or 3, then 0. */
static void loans_four(void) {
    const uint32_t found[] = {3, 2, 1, 2}, between[] = {3, 3, 2, 2, 2};
    uint8_t *area = fresh_register(), code[10];
    char text[ISCC_TEXT_AREA + 1];
    for (size_t i = 0; i < 4; i++) issue_row(area, 2 * i + 1, i);
    for (size_t i = 0; i < 9; i++) {
        code_of_row(i, code, text);
        loans_told due = i % 2 == 1 ? (loans_told){.borrower = (uint32_t)i, .looks = found[i / 2]}
                                    : (loans_told){.number = ISCC_NOT_OUT, .looks = between[i / 2]};
        call_keeps(ASK, text, strlen(text), area, REGISTER, due, text);
    }
    free(area);
}

/* The text of a code's bytes. */
static void text_of(const uint8_t *code, size_t length, char text[ISCC_TEXT_AREA + 1]) {
    iscc_written written = iscc_text(code, length, (uint8_t *)text, ISCC_TEXT_AREA);
    expect_same("number of text", written.number, ISCC_OK, "a code's text");
    text[written.length] = '\0';
}

/* Two codes of the same bytes in another order are two codes: four of one body are exchanged with four of the other, at the
 * same distance from a multiple of four in the place, so that no sum over words of four bytes tells them apart. The first byte
 * that differs is 3e in the one and 80 in the other: bytes have no sign. */
static void loans_alike(void) {
    uint8_t *area = fresh_register(), other_code[sizeof composite_code];
    char other[ISCC_TEXT_AREA + 1];
    memcpy(other_code, composite_code, sizeof composite_code);
    memcpy(other_code + 3, composite_code + 11, 4);
    memcpy(other_code + 11, composite_code + 3, 4);
    text_of(other_code, sizeof other_code, other);
    issue_takes(area, 0, COMPOSITE, 7, composite_code, sizeof composite_code);
    not_out(area, other);
    issue_takes(area, 1, other, 8, other_code, sizeof other_code);
    has(area, COMPOSITE, 7);
    has(area, other, 8);
    issue_refused(area, other, ISCC_ALREADY_OUT);
    put_place(area, 2, other_code, sizeof other_code, 9);
    call_keeps(ASK, COMPOSITE, strlen(COMPOSITE), area, REGISTER, only(ISCC_NOT_REGISTER), "a code twice");
    put_place(area, 2, wide_code, sizeof wide_code, 9);
    return_closes(area, 0, COMPOSITE);
    has(area, other, 8);
    not_out(area, COMPOSITE);
    free(area);
}

/* A wide composite is a code like any other, and another one than the composites that share bytes with it: of four units with
 * the same body, and of 64 bits with the first bytes of its two. */
static void loans_wide(void) {
    uint8_t *area = fresh_register(), four_code[sizeof wide_code], short_code[18] = {0x55, 0x00};
    char four[ISCC_TEXT_AREA + 1], narrow[ISCC_TEXT_AREA + 1];
    memcpy(four_code, wide_code, sizeof wide_code);
    four_code[0] = 0x50;
    four_code[1] = 0x03;
    memcpy(short_code + 2, wide_code + 2, 8);
    memcpy(short_code + 10, wide_code + 18, 8);
    text_of(four_code, sizeof four_code, four);
    text_of(short_code, sizeof short_code, narrow);
    not_out(area, WIDE);
    issue_takes(area, 0, SMALL_WIDE, 0x01020304, wide_code, sizeof wide_code);
    has(area, WIDE, 0x01020304);
    issue_refused(area, WIDE, ISCC_ALREADY_OUT);
    not_out(area, four);
    not_out(area, narrow);
    issue_takes(area, 0, four, 5, four_code, sizeof four_code);
    issue_takes(area, 1, narrow, 6, short_code, sizeof short_code);
    has(area, SMALL_WIDE, 0x01020304);
    return_closes(area, 2, WIDE);
    not_out(area, SMALL_WIDE);
    has(area, four, 5);
    has(area, narrow, 6);
    free(area);
}

/* A text that intake refuses has intake's number, whether the area is a register or not. */
static void loans_texts(void) {
    const struct {
        const char *typed;
        uint32_t number;
    } refused[] = {
        {"", ISCC_EMPTY_TEXT},
        {"iscc:-", ISCC_EMPTY_TEXT},
        {"GAAW2PRCRS5LNVZ0", ISCC_BAD_CHARACTER},
        {"A", ISCC_BAD_COUNT},
        {"AB", ISCC_SPARE_BITS},
        {"AA", ISCC_BAD_HEADER},
        {"K4AQ", ISCC_NOT_PERMITTED},
        {"K4AA", ISCC_SHORT_BODY},
        {"GAAW2PRC", ISCC_SHORT_BODY},
        {"GAAW2PRCRS5LNVZV-MAAGZTFQTTVIZPJR", ISCC_NOT_JOINABLE},
        {"GAAW2PRCRS5LNVZV-GAAW2PRCRS5LNVZV", ISCC_MAIN_TYPE_TWICE},
        {"AAA6UO6XHYVVA3QA-GAAW2PRCRS5LNVZV", ISCC_LACKS_DATA_OR_INSTANCE},
    };
    char long_text[1025], long_run[81];
    uint8_t *area = fresh_register(), *damaged = fresh_register();
    memset(long_text, ' ', sizeof long_text);
    memset(long_run, 'A', sizeof long_run);
    damaged[COUNTS] = 1;
    put_place(area, 0, composite_code, sizeof composite_code, 1);
    for (size_t i = 0; i < sizeof refused / sizeof *refused; i++) {
        size_t length = strlen(refused[i].typed);
        all_refuse(refused[i].typed, length, area, REGISTER, refused[i].number, refused[i].typed);
        all_refuse(refused[i].typed, length, damaged, REGISTER, refused[i].number, refused[i].typed);
        all_refuse(refused[i].typed, length, NULL, 0, refused[i].number, refused[i].typed);
    }
    all_refuse(long_text, sizeof long_text, damaged, REGISTER, ISCC_LONG_TEXT, "long text");
    all_refuse(long_run, sizeof long_run, damaged, REGISTER, ISCC_LONG_RUN, "long run");
    free(area);
    free(damaged);
}

/* Zeros are a register in one length alone: without the last number they were one before version 0.7, and before version 0.6
 * without the counts too. */
static void loans_lengths(void) {
    const size_t lengths[] = {1, LAST_BYTES, COUNTS, PLACE, REGISTER - PLACE, REGISTER - COUNTS, LAST - COUNTS, LAST,
                              REGISTER - 1, REGISTER + 1, REGISTER + LAST_BYTES, REGISTER + COUNTS, REGISTER + PLACE,
                              2 * REGISTER};
    for (size_t i = 0; i < sizeof lengths / sizeof *lengths; i++) {
        uint8_t *area = calloc(1, lengths[i]);
        if (area == NULL) abort();
        all_refuse(COMPOSITE, strlen(COMPOSITE), area, lengths[i], ISCC_NOT_REGISTER, "another length");
        not_counted(area, lengths[i], "another length");
        free(area);
    }
    not_counted(NULL, 0, "null register");
    all_refuse(COMPOSITE, strlen(COMPOSITE), NULL, 0, ISCC_NOT_REGISTER, "null register");
    all_refuse(NULL, 0, NULL, 0, ISCC_EMPTY_TEXT, "null text and register");
}

/* A register with the longest code in place 0, the composite in place 1, and nothing else. */
static uint8_t *two_out(void) {
    uint8_t *area = fresh_register();
    put_place(area, 0, longest_code, sizeof longest_code, 2);
    put_place(area, 1, composite_code, sizeof composite_code, 1);
    return area;
}

/* What no call writes is not a register, for a code that is out and for one that is not. */
static void not_a_register(uint8_t *area, const char *of) {
    all_refuse(COMPOSITE, strlen(COMPOSITE), area, REGISTER, ISCC_NOT_REGISTER, of);
    all_refuse(SHORTEST, strlen(SHORTEST), area, REGISTER, ISCC_NOT_REGISTER, of);
    not_counted(area, REGISTER, of);
}

/* One byte at a time: of a used place, of one without fill bytes, and of a free one. The counts go with what the length bytes
 * say then. */
static void loans_damaged(void) {
    const struct {
        size_t offset; /* behind the counts */
        uint8_t byte;
        const char *what;
    } damages[] = {
        {PLACE, 0, "length 0 before a code"},
        {PLACE, 17, "length one less"},
        {PLACE, 19, "length one more"},
        {PLACE, 43, "length 43"},
        {PLACE, 255, "length 255"},
        {PLACE + 1, 0x75, "main type 7"},
        {PLACE + 2, 0x01, "another composite"},
        {PLACE + 19, 1, "first fill byte"},
        {PLACE + 42, 1, "last fill byte"},
        {PLACE + 43, 1, "zero byte"},
        {0, 43, "length 43 before 42 bytes of code"},
        {0, 42 + 64, "length 106 before 42 bytes of code"},
        {43, 1, "zero byte right behind a code"},
        {2 * PLACE, 1, "cut header"},
        {2 * PLACE + 1, 1, "first byte behind length 0"},
        {2 * PLACE + 43, 1, "zero byte of a free place"},
        {2 * PLACE + 44, 1, "borrower of a free place"},
        {PLACES * PLACE - PLACE, 5, "length of the last place"},
        {PLACES * PLACE - 1, 1, "last byte of the last place"},
    };
    for (size_t i = 0; i < sizeof damages / sizeof *damages; i++) {
        uint8_t *area = two_out();
        area[COUNTS + damages[i].offset] = damages[i].byte;
        count_places(area);
        not_a_register(area, damages[i].what);
        free(area);
    }
}

/* Places that are well formed, in order, and make no register: a list, and what is nearly a wide composite. */
static void loans_wrong_codes(void) {
    const uint8_t list[] = {0x30, 0x01, 0x6d, 0x3e, 0x22, 0x8c, 0xba, 0xb6, 0xd7, 0x35,
                            0x40, 0x01, 0x4a, 0x80, 0x50, 0x55, 0xc9, 0xba, 0xf3, 0x96};
    uint8_t *area = two_out();
    make_room(area, 0, list, sizeof list, 3);
    not_a_register(area, "a list");
    close_gap(area, 0);
    put_place(area, 2, wide_code, sizeof wide_code - 1, 3);
    not_a_register(area, "a cut wide composite");
    put_place(area, 2, wide_code, sizeof wide_code, 3);
    area[offset_of(2)] = sizeof wide_code + 1;
    not_a_register(area, "a wide composite and a byte");
    area[offset_of(2)] = sizeof wide_code;
    area[offset_of(2) + 2] = 0x01;
    not_a_register(area, "57 01");
    free(area);
}

/* Loans that could be out, each in a good place, but the places make no register: another order, by length too, a code in two
 * of them, and used ones behind a free one. */
static void loans_wrong_order(void) {
    uint8_t *area = fresh_register();
    put_place(area, 0, composite_code, sizeof composite_code, 1);
    put_place(area, 1, longest_code, sizeof longest_code, 2);
    not_a_register(area, "18 bytes that begin 55 before 42 that begin 50");
    put_place(area, 2, wide_code, sizeof wide_code, 3);
    not_a_register(area, "the first two exchanged");
    put_place(area, 0, longest_code, sizeof longest_code, 2);
    put_place(area, 1, wide_code, sizeof wide_code, 3);
    put_place(area, 2, composite_code, sizeof composite_code, 1);
    not_a_register(area, "the last two exchanged");
    put_place(area, 1, composite_code, sizeof composite_code, 3);
    not_a_register(area, "a code twice, two borrowers");
    put_place(area, 1, composite_code, sizeof composite_code, 1);
    not_a_register(area, "a code twice, one borrower");
    put_place(area, 2, longest_code, sizeof longest_code, 2);
    not_a_register(area, "a code twice, another between");
    free_place(area, 2);
    for (size_t place = 3; place < PLACES; place += 63) {
        put_place(area, place, wide_code, sizeof wide_code, 3);
        not_a_register(area, "a used place behind a free one");
        free_place(area, place);
    }
    free_place(area, 0);
    not_a_register(area, "the first place free");
    free(area);
}

/* A full register with one fault of order, wherever it stands: two neighbours exchanged, or the same code in both. */
static void loans_wrong_pairs(void) {
    uint8_t *full = fresh_register(), code[10], next[10];
    char text[ISCC_TEXT_AREA + 1];
    for (size_t i = 0; i < PLACES; i++) {
        code_of_row(i, code, text);
        put_place(full, i, code, sizeof code, 7);
    }
    for (size_t i = 0; i + 1 < PLACES; i++) {
        uint8_t *area = copy_of(full, REGISTER);
        code_of_row(i, code, text);
        code_of_row(i + 1, next, text);
        put_place(area, i, next, sizeof next, 7);
        call_keeps(ASK, text, strlen(text), area, REGISTER, only(ISCC_NOT_REGISTER), "neighbours alike");
        put_place(area, i + 1, code, sizeof code, 7);
        call_keeps(ASK, text, strlen(text), area, REGISTER, only(ISCC_NOT_REGISTER), "neighbours exchanged");
        free(area);
    }
    free(full);
}

/* A register that no calls made, but could have: a length byte alone is a code of zeros, before all others. */
static void loans_from_elsewhere(void) {
    const uint8_t zeros[6] = {0}; /* 00 00 and a body of zeros: a META unit of 32 bits */
    uint8_t *area = two_out();
    make_room(area, 0, shortest_code, sizeof shortest_code, 9);
    make_room(area, 0, zeros, sizeof zeros, 0);
    has(area, "AAAAAAAAAA", 0);
    has(area, SHORTEST, 9);
    return_closes(area, 0, "AAAAAAAAAA");
    return_closes(area, 0, SHORTEST);
    issue_takes(area, 0, SHORTEST, 10, shortest_code, sizeof shortest_code);
    free(area);
}

/* Counts after each issue and return, by hand: two units, a list of units, a wide composite and an ID. A refused call leaves
 * them. */
static void loans_counts_of_types(void) {
    const uint8_t zeros[6] = {0};
    uint8_t *area = fresh_register();
    counted(area, REGISTER, (loans_counted){.number = ISCC_OK}, "nothing out");
    issue_takes(area, 0, SHORTEST, 1, shortest_code, sizeof shortest_code);
    counted(area, REGISTER, (loans_counted){.out = 1, .data = 1}, "a unit");
    issue_takes(area, 1, UNITS, 2, composite_code, sizeof composite_code);
    counted(area, REGISTER, (loans_counted){.out = 2, .data = 1, .iscc = 1}, "a list");
    issue_takes(area, 2, WIDE, 3, wide_code, sizeof wide_code);
    counted(area, REGISTER, (loans_counted){.out = 3, .data = 1, .iscc = 2}, "a wide composite");
    issue_takes(area, 3, AN_ID, 4, id_code, sizeof id_code);
    counted(area, REGISTER, (loans_counted){.out = 4, .data = 1, .iscc = 2, .id = 1}, "an ID");
    issue_takes(area, 0, "AAAAAAAAAA", 5, zeros, sizeof zeros);
    counted(area, REGISTER, (loans_counted){.out = 5, .meta = 1, .data = 1, .iscc = 2, .id = 1}, "a META unit");
    issue_refused(area, COMPOSITE, ISCC_ALREADY_OUT);
    not_out(area, LONGEST);
    counted(area, REGISTER, (loans_counted){.out = 5, .meta = 1, .data = 1, .iscc = 2, .id = 1}, "two refusals");
    return_closes(area, 2, COMPOSITE);
    counted(area, REGISTER, (loans_counted){.out = 4, .meta = 1, .data = 1, .iscc = 1, .id = 1}, "the list is back");
    return_closes(area, 3, AN_ID);
    counted(area, REGISTER, (loans_counted){.out = 3, .meta = 1, .data = 1, .iscc = 1}, "the ID is back");
    return_closes(area, 1, SHORTEST);
    return_closes(area, 1, SMALL_WIDE);
    return_closes(area, 0, "AAAAAAAAAA");
    counted(area, REGISTER, (loans_counted){.number = ISCC_OK}, "all are back");
    free(area);
}

/* One code of main type 0 to seven of main type 6: each count stands in its bytes, and is told under its name. */
static void loans_counts_by_name(void) {
    const uint8_t heads[] = {0x00, 0x10, 0x20, 0x30, 0x40};
    const uint8_t due[COUNTS] = {0, 28, 0, 1, 0, 2, 0, 3, 0, 4, 0, 5, 0, 6, 0, 7};
    uint8_t *area = fresh_register(), code[18] = {0};
    size_t place = 0;
    for (uint8_t type = 0; type < 5; type++) {
        for (uint8_t i = 0; i <= type; i++, place++) {
            memset(code, 0, sizeof code);
            code[0] = heads[type];
            code[5] = i;
            put_place(area, place, code, 6, 7);
        }
    }
    for (uint8_t i = 0; i < 6; i++, place++) {
        memcpy(code, composite_code, sizeof code);
        code[17] = i;
        put_place(area, place, code, sizeof code, 7);
    }
    for (uint8_t i = 0; i < 7; i++, place++) {
        memcpy(code, id_code, sizeof id_code);
        code[9] = i;
        put_place(area, place, code, sizeof id_code, 7);
    }
    expect(memcmp(area, due, COUNTS) == 0, "other counts", "one to seven of each main type");
    counted(area, REGISTER, (loans_counted){ISCC_OK, 28, 1, 2, 3, 4, 5, 6, 7}, "one to seven of each main type");
    free(area);
}

/* 255 codes, 256 and 255 again: both bytes of a count change. */
static void loans_counts_carried(void) {
    uint8_t *area = fresh_register(), code[10];
    char text[ISCC_TEXT_AREA + 1];
    for (size_t i = 0; i < PLACES; i++) {
        issue_row(area, i, i);
        counted(area, REGISTER, (loans_counted){.out = (uint32_t)i + 1, .data = (uint32_t)i + 1}, "a row of codes");
    }
    code_of_row(77, code, text);
    return_closes(area, 77, text);
    counted(area, REGISTER, (loans_counted){.out = 255, .data = 255}, "one is back");
    issue_takes(area, 255, AN_ID, 1, id_code, sizeof id_code);
    counted(area, REGISTER, (loans_counted){.out = 256, .data = 255, .id = 1}, "an ID instead");
    free(area);
}

/* Places in order, and counts that are not theirs: one too high or too low, its two bytes exchanged, its high byte, two counts
 * exchanged, a code counted under another main type, all moved by one. */
static void loans_wrong_counts(void) {
    for (size_t i = 0; i < COUNTS / 2; i++) {
        uint8_t *area = two_out(), count;
        put_place(area, 2, id_code, sizeof id_code, 3);
        count = area[2 * i + 1];
        put_count(area, i, count + 1u);
        not_a_register(area, "a count one too high");
        put_count(area, i, count - 1u);
        not_a_register(area, "a count one too low");
        put_count(area, i, count + 256u);
        not_a_register(area, "a count 256 too high");
        put_count(area, i, count + 32768u);
        not_a_register(area, "the highest bit of a count");
        put_count(area, i, count * 256u);
        if (count != 0) not_a_register(area, "the bytes of a count exchanged");
        put_count(area, i, 0);
        if (count != 0) not_a_register(area, "a count of zero");
        for (size_t j = 0; j < i; j++) {
            count_places(area);
            uint8_t other = area[2 * j + 1];
            put_count(area, i, other);
            put_count(area, j, count);
            if (count != other) not_a_register(area, "two counts exchanged");
            put_count(area, i, count + 1u);
            put_count(area, j, other - 1u);
            not_a_register(area, "one more here, one less there");
            put_count(area, j, other + 1u);
            not_a_register(area, "one more in both");
        }
        free(area);
    }
    uint8_t *area = two_out();
    memmove(area + 2, area, COUNTS - 2);
    not_a_register(area, "the counts one on");
    memset(area, 0, COUNTS);
    not_a_register(area, "no counts");
    free(area);
    area = fresh_register();
    put_count(area, 0, 1);
    not_a_register(area, "nothing out, and one counted");
    put_count(area, 6, 1);
    not_a_register(area, "nothing out, and a composite counted");
    free(area);
}

/* Registers of older versions, with codes out: before 0.7 they had no last number, before 0.6 no counts either. */
static void loans_older(void) {
    uint8_t *area = two_out(), *places = copy_of(area + COUNTS, LAST - COUNTS), *unnumbered = copy_of(area, LAST);
    all_refuse(COMPOSITE, strlen(COMPOSITE), places, LAST - COUNTS, ISCC_NOT_REGISTER, "places alone");
    not_counted(places, LAST - COUNTS, "places alone");
    all_refuse(COMPOSITE, strlen(COMPOSITE), unnumbered, LAST, ISCC_NOT_REGISTER, "no last number");
    not_counted(unnumbered, LAST, "no last number");
    counted(area, REGISTER, (loans_counted){.out = 2, .iscc = 2}, "with counts and last number");
    free(area);
    free(places);
    free(unnumbered);
}

/* Each change takes the next number, stands for it in the register and tells it, whatever byte of it changes; a refused one
 * takes none and tells 0. A question and the counts leave it, and take every last number. */
static void loans_numbers(void) {
    const uint32_t lasts[] = {0, 1, 0xfe, 0xff, 0xffff, 0xffffff, 0x01020304, 0x7fffffff, 0x80000000, 0xfffffffd};
    for (size_t i = 0; i < sizeof lasts / sizeof *lasts; i++) {
        uint8_t *area = two_out();
        put_last(area, lasts[i]);
        has(area, COMPOSITE, 1);
        counted(area, REGISTER, (loans_counted){.out = 2, .iscc = 2}, "any last number");
        issue_refused(area, COMPOSITE, ISCC_ALREADY_OUT);
        issue_refused(area, "GAA0", ISCC_BAD_CHARACTER);
        return_refused(area, SHORTEST, ISCC_NOT_OUT);
        issue_takes(area, 0, SHORTEST, 7, shortest_code, sizeof shortest_code);
        expect_same("last number", last_of(area), lasts[i] + 1, "an issue");
        issue_refused(area, SHORTEST, ISCC_ALREADY_OUT);
        has(area, SHORTEST, 7);
        return_closes(area, 2, UNITS);
        expect_same("last number", last_of(area), lasts[i] + 2, "a return");
        return_refused(area, UNITS, lasts[i] == SPENT - 2 ? ISCC_NUMBERS_SPENT : ISCC_NOT_OUT);
        free(area);
    }
}

/* By hand: the first record number is 1, and it stands high byte first, behind the places. */
static void loans_first_number(void) {
    const uint8_t second[LAST_BYTES] = {0, 0, 0, 2}, carried[LAST_BYTES] = {1, 3, 0, 0};
    uint8_t *area = fresh_register();
    expect_same("record number", loans_issue((const uint8_t *)AN_ID, 16, 5, area, REGISTER).record_number, 1, "an issue");
    expect_same("record number", loans_return((const uint8_t *)AN_ID, 16, area, REGISTER).record_number, 2, "a return");
    expect(memcmp(area + LAST, second, LAST_BYTES) == 0, "another last number", "two changes");
    put_last(area, 0x0102ffff);
    expect_same("record number", loans_issue((const uint8_t *)AN_ID, 16, 5, area, REGISTER).record_number, 0x01030000,
                "a carry");
    expect(memcmp(area + LAST, carried, LAST_BYTES) == 0, "another last number", "a carry");
    free(area);
}

/* No number is left: 26 for every issue and return, before 20 to 22 and behind the text's numbers and 23. Questions and counts
 * go on. */
static void loans_numbers_spent(void) {
    uint8_t *area = two_out(), *full = fresh_register(), code[10];
    char text[ISCC_TEXT_AREA + 1];
    put_last(area, SPENT);
    issue_refused(area, SHORTEST, ISCC_NUMBERS_SPENT);
    issue_refused(area, COMPOSITE, ISCC_NUMBERS_SPENT);
    return_refused(area, COMPOSITE, ISCC_NUMBERS_SPENT);
    return_refused(area, SHORTEST, ISCC_NUMBERS_SPENT);
    has(area, COMPOSITE, 1);
    not_found(area, SHORTEST);
    counted(area, REGISTER, (loans_counted){.out = 2, .iscc = 2}, "no number left");
    all_refuse("GAA0", 4, area, REGISTER, ISCC_BAD_CHARACTER, "no number left");
    all_refuse("", 0, area, REGISTER, ISCC_EMPTY_TEXT, "no number left");
    put_count(area, 0, 3);
    not_a_register(area, "no number left, and a wrong count");
    for (size_t i = 0; i < PLACES; i++) {
        code_of_row(i, code, text);
        put_place(full, i, code, sizeof code, 7);
    }
    put_last(full, SPENT);
    issue_refused(full, COMPOSITE, ISCC_NUMBERS_SPENT);
    issue_refused(full, text, ISCC_NUMBERS_SPENT);
    return_refused(full, text, ISCC_NUMBERS_SPENT);
    put_last(full, SPENT - 1);
    issue_refused(full, COMPOSITE, ISCC_ALL_OUT);
    return_closes(full, PLACES - 1, text);
    expect_same("last number", last_of(full), SPENT, "the last number there is");
    issue_refused(full, text, ISCC_NUMBERS_SPENT);
    free(area);
    free(full);
}

/* A question writes nothing, not even the bytes that are there, and neither do the counts: this register lies where nobody may
 * write. It may also lie over the text: here the body of a code spells another one. */
static void loans_only_read(void) {
    static const uint8_t area[REGISTER] = {
        [LAST] = 0xff, 0xff, 0xff, 0xff,
        [1] = 2, [9] = 2,
        [COUNTS] = 6, 0x30, 0x00, 0xff, 0x00, 0x00, 0x01, [COUNTS + 44] = 0, 0, 1, 2,
        [COUNTS + PLACE] = 18, 0x30, 0x03, 'G', 'A', 'A', 'P', '6', 'A', 'A', 'A', 'A', 'E', ' ', ' ', ' ', ' ', ' ', ' ',
    };
    loans_counted counts = loans_counts(area, REGISTER);
    expect_same("number", counts.number, ISCC_OK, "register that cannot be written");
    expect_same("out", counts.out, 2, "register that cannot be written");
    expect_same("data", counts.data, 2, "register that cannot be written");
    loans_holder answer = loans_ask((const uint8_t *)SHORTEST, strlen(SHORTEST), area, REGISTER);
    expect_same("number", answer.number, ISCC_OK, "register that cannot be written");
    expect_same("borrower", answer.borrower, 258, "register that cannot be written");
    expect_same("looks", answer.looks, 2, "register that cannot be written");
    answer = loans_ask(area + COUNTS + PLACE + 3, 16, area, REGISTER);
    expect_same("number", answer.number, ISCC_OK, "text in the register");
    expect_same("borrower", answer.borrower, 258, "text in the register");
    expect_same("looks", answer.looks, 2, "text in the register");
}

#endif
