/* The console's entries as the console uses them: every area is a heap block of just its length, and answers are those
 * of the specification.
 *
 * It is built twice. First with the compiler's address and undefined behaviour checks, which see this program alone: the
 * library is not built with them, so that an area which is stated longer than it is would go unreported. Then without them,
 * for valgrind's memcheck, which sees every read and write of the library too.
 *
 * usage: console_test [--only BLOCK] */
#define _POSIX_C_SOURCE 200809L /* for sigaction */
#include "expect.h"
#include "iscc.h"
#include "loans_blocks.h"
#include "log_blocks.h"
#include "promotion_blocks.h"

#include <inttypes.h>
#include <signal.h>

/* What to put before the program to run it as it is meant to be run. */
#ifndef BY
#define BY ""
#endif

static const char *program;
static const char *block_name;
static int passed;
static int failed;

/* Intake with an area of `area` bytes, which must answer `number` and, on success, write `due` and nothing behind it. */
static void intake_bytes(const char *text, size_t length, size_t area, uint32_t number, const char *due) {
    const uint8_t fills[] = {0x00, 0x5a, 0xff};
    for (size_t i = 0; i < sizeof fills; i++) {
        uint8_t *typed = copy_of(text, length);
        uint8_t *out = area == 0 ? NULL : malloc(area);
        if (area != 0) memset(out, fills[i], area);
        iscc_written answer = iscc_intake(typed, length, out, area);
        size_t due_length = number == 0 ? strlen(due) : 0;
        expect_same("number", answer.number, number, text);
        expect_same("length", answer.length, due_length, text);
        if (answer.length == due_length && due_length <= area) {
            if (due_length > 0) expect(memcmp(out, due, due_length) == 0, "another text", text);
            expect(all_are(out + due_length, area - due_length, fills[i]), "a byte that must stay was changed", text);
        }
        if (length > 0) expect(memcmp(typed, text, length) == 0, "the text was changed", text);
        free(typed);
        free(out);
    }
}

static uint32_t strict(const char *text) {
    size_t length = strlen(text);
    uint8_t *typed = copy_of(text, length);
    uint32_t number = iscc_strict(typed, length);
    free(typed);
    return number;
}

static void written(const char *text, const char *due) {
    intake_bytes(text, strlen(text), ISCC_TEXT_AREA, ISCC_OK, due);
    intake_bytes(text, strlen(text), 100, ISCC_OK, due);
    expect_same("number of the strict door", strict(due), ISCC_OK, due);
    if (strcmp(text, due) != 0) expect_same("number of the strict door", strict(text), ISCC_OTHER_TEXT, text);
}

static void refused(const char *text, uint32_t number) {
    intake_bytes(text, strlen(text), ISCC_TEXT_AREA, number, NULL);
    expect_same("number of the strict door", strict(text), number, text);
}

static void line_case(void) {
    written("GAAW2PRCRS5LNVZV-IAAUVACQKXE3V44W", "ISCC:KUAG2PRCRS5LNVZVJKAFAVOJXLZZM");
    written("IAAUVACQKXE3V44W-GAAW2PRCRS5LNVZV", "ISCC:KUAG2PRCRS5LNVZVJKAFAVOJXLZZM");
    written("iscc:maagztfqttvizpjr", "ISCC:MAAGZTFQTTVIZPJR");
    written("Iscc:Maagztfqttvizpjr", "ISCC:MAAGZTFQTTVIZPJR");
    refused("", ISCC_EMPTY_TEXT);
}

static void one_unit(void) {
    written("GAAW2PRCRS5LNVZV", "ISCC:GAAW2PRCRS5LNVZV");
    written(" \t\r\nGAAW2-PRCRS5LNVZV-\n", "ISCC:GAAW2PRCRS5LNVZV");
    refused("GAAW2PRCRS5LNVZVGAAW2PRCRS5LNVZV", ISCC_MAIN_TYPE_TWICE);
    refused("GAAW2PRCRS5LNVZV-MAAGZTFQTTVIZPJR", ISCC_NOT_JOINABLE);
}

static void short_texts(void) {
    refused("ISCC", ISCC_SPARE_BITS);
    refused("AB", ISCC_SPARE_BITS);
    refused("A", ISCC_BAD_COUNT);
    refused("A1", ISCC_BAD_CHARACTER);
    refused("AA", ISCC_BAD_HEADER);
    refused("ISCC:", ISCC_EMPTY_TEXT);
    refused("-", ISCC_EMPTY_TEXT);
    refused("   ", ISCC_EMPTY_TEXT);
}

/* The header 57 00 in base32 is K4AA, and 57 01 is K4AQ; the longest composite fills the area of 73 bytes to its end. */
static void headers(void) {
    char longest[ISCC_TEXT_AREA + 1] = "ISCC:";
    refused("K4AA", ISCC_SHORT_BODY);
    refused("K4AQ", ISCC_NOT_PERMITTED);
    memset(longest + 5, 'A', 68);
    memcpy(longest + 5, "KADQ", 4);
    longest[ISCC_TEXT_AREA] = 0;
    written(longest, longest);
    written(longest + 5, longest);
}

static void areas(void) {
    const char *unit = "GAAW2PRCRS5LNVZV";
    const size_t too_short[] = {0, 1, 21, 72};
    for (size_t i = 0; i < sizeof too_short / sizeof *too_short; i++) {
        intake_bytes(unit, strlen(unit), too_short[i], ISCC_AREA_TOO_SHORT, NULL);
        intake_bytes("A1", 2, too_short[i], ISCC_AREA_TOO_SHORT, NULL);
        intake_bytes("", 0, too_short[i], ISCC_AREA_TOO_SHORT, NULL);
    }
    intake_bytes("", 0, ISCC_TEXT_AREA, ISCC_EMPTY_TEXT, NULL);
    expect_same("number", iscc_strict(NULL, 0), ISCC_EMPTY_TEXT, "null text");
}

static void long_texts(void) {
    char blanks[1025], hyphens[1025], letters[81];
    memset(blanks, ' ', sizeof blanks);
    memset(hyphens, '-', sizeof hyphens);
    memset(letters, 'A', sizeof letters);
    intake_bytes(blanks, 1024, ISCC_TEXT_AREA, ISCC_EMPTY_TEXT, NULL);
    intake_bytes(blanks, 1025, ISCC_TEXT_AREA, ISCC_LONG_TEXT, NULL);
    intake_bytes(hyphens, 1024, ISCC_TEXT_AREA, ISCC_EMPTY_TEXT, NULL);
    intake_bytes(hyphens, 1025, 72, ISCC_AREA_TOO_SHORT, NULL);
    intake_bytes(letters, 80, ISCC_TEXT_AREA, ISCC_SHORT_BODY, NULL);
    intake_bytes(letters, 81, ISCC_TEXT_AREA, ISCC_LONG_RUN, NULL);
    memcpy(hyphens, "GAAW2PRCRS5LNVZV", 16);
    intake_bytes(hyphens, 1024, ISCC_TEXT_AREA, ISCC_OK, "ISCC:GAAW2PRCRS5LNVZV");
}

static iscc_distance_answer distance(const void *a, size_t a_len, const void *b, size_t b_len) {
    uint8_t *first = copy_of(a, a_len), *second = copy_of(b, b_len);
    iscc_distance_answer answer = iscc_distance(first, a_len, second, b_len);
    expect(a_len == 0 || memcmp(first, a, a_len) == 0, "an area was changed", "distance");
    expect(b_len == 0 || memcmp(second, b, b_len) == 0, "an area was changed", "distance");
    free(first);
    free(second);
    return answer;
}

/* The ratio by its bits, as the vectors have it. */
static void expect_distance(iscc_distance_answer answer, uint32_t number, uint32_t d, uint32_t n, uint32_t ratio,
                            const char *of) {
    uint32_t bits;
    memcpy(&bits, &answer.ratio, sizeof bits);
    if (answer.number == number && answer.d == d && answer.n == n && bits == ratio) return;
    block_ok = false;
    printf("  %.40s: expected number=%" PRIu32 " d=%" PRIu32 " n=%" PRIu32 " ratio=%08" PRIx32 "\n", of, number, d, n, ratio);
    printf("  %.40s: found    number=%" PRIu32 " d=%" PRIu32 " n=%" PRIu32 " ratio=%08" PRIx32 "\n", of, answer.number, answer.d,
           answer.n, bits);
}

static void no_distance(const void *a, size_t a_len, const void *b, size_t b_len, uint32_t number, const char *of) {
    iscc_distance_answer answer = distance(a, a_len, b, b_len);
    expect_distance(answer, number, 0, 0, 0, of);
}

static void distances(void) {
    const uint8_t data[] = {0x30, 0, 0, 0, 0, 0}, other[] = {0x30, 0, 0xff, 0, 0, 1}, meta[] = {0, 0, 0, 0, 0, 0};
    const uint8_t longer[] = {0x30, 1, 0xff, 0, 0, 1, 9, 9, 9, 9}, left_over[] = {0x30, 0, 0, 0, 0, 0, 0};
    const uint8_t cut[] = {0x30, 0, 0, 0, 0}, instance[] = {0x40, 0, 0, 0, 0, 0};
    const uint8_t cut_wide[] = {0x57, 0}, other_length[34] = {0x57, 1};
    iscc_distance_answer answer = distance(data, sizeof data, other, sizeof other);
    expect_distance(answer, ISCC_OK, 9, 32, 0x3e900000, "distance of 0.28125");
    answer = distance(data, sizeof data, longer, sizeof longer);
    expect_distance(answer, ISCC_OK, 9, 32, 0x3e900000, "distance over the shorter body");
    no_distance(data, sizeof data, meta, sizeof meta, ISCC_NO_DISTANCE, "two main types");
    no_distance(instance, sizeof instance, instance, sizeof instance, ISCC_NO_DISTANCE, "INSTANCE");
    no_distance(NULL, 0, NULL, 0, ISCC_BAD_HEADER, "null areas");
    no_distance(data, sizeof data, NULL, 0, ISCC_BAD_HEADER, "null second area");
    no_distance(cut_wide, sizeof cut_wide, NULL, 0, ISCC_SHORT_BODY, "57 00");
    no_distance(other_length, sizeof other_length, NULL, 0, ISCC_NOT_PERMITTED, "57 01");
    no_distance(wide_code, sizeof wide_code, NULL, 0, ISCC_BAD_HEADER, "a wide composite and nothing");
    no_distance(wide_code, sizeof wide_code, wide_code, sizeof wide_code, ISCC_NO_DISTANCE, "a wide composite with itself");
    no_distance(wide_code, sizeof wide_code, data, sizeof data, ISCC_NO_DISTANCE, "a wide composite and a unit");
    no_distance(data, sizeof data, wide_code, sizeof wide_code, ISCC_NO_DISTANCE, "a unit and a wide composite");
    no_distance(cut, sizeof cut, data, sizeof data, ISCC_SHORT_BODY, "cut");
    no_distance(left_over, sizeof left_over, cut, sizeof cut, ISCC_BYTES_LEFT_OVER, "left over");
}

typedef iscc_written entry(const uint8_t *, size_t, uint8_t *, size_t);

/* An entry on these bytes with an area of `area` bytes: it must answer `number` and, on success, write `due` and nothing
 * behind. */
static void writes(entry *call, const void *bytes, size_t length, size_t area, uint32_t number, const void *due,
                   size_t due_length, const char *of) {
    const uint8_t fills[] = {0x00, 0x5a, 0xff};
    for (size_t i = 0; i < sizeof fills; i++) {
        uint8_t *read = copy_of(bytes, length);
        uint8_t *out = area == 0 ? NULL : malloc(area);
        if (area != 0) memset(out, fills[i], area);
        iscc_written answer = call(read, length, out, area);
        expect_same("number", answer.number, number, of);
        expect_same("length", answer.length, due_length, of);
        if (answer.length == due_length && due_length <= area) {
            if (due_length > 0) expect(memcmp(out, due, due_length) == 0, "other bytes", of);
            expect(all_are(out + due_length, area - due_length, fills[i]), "a byte that must stay was changed", of);
        }
        if (length > 0) expect(memcmp(read, bytes, length) == 0, "an area for reading was changed", of);
        free(read);
        free(out);
    }
}

static void refuses(entry *call, const void *bytes, size_t length, size_t area, uint32_t number, const char *of) {
    writes(call, bytes, length, area, number, NULL, 0, of);
}

/* The units and the composite of the line case; two typed labels of it have the same code. */
static void codes(void) {
    const uint8_t units[] = {0x30, 0x01, 0x6d, 0x3e, 0x22, 0x8c, 0xba, 0xb6, 0xd7, 0x35,
                             0x40, 0x01, 0x4a, 0x80, 0x50, 0x55, 0xc9, 0xba, 0xf3, 0x96};
    uint8_t composite[18] = {0x55, 0x00}, unit_behind[11] = {0};
    const char *label = "GAAW2PRCRS5LNVZV-IAAUVACQKXE3V44W", *other = "iscc:iaauvacqkxe3v44wgaaw2prcrs5lnvzv";
    const char *text = "ISCC:KUAG2PRCRS5LNVZVJKAFAVOJXLZZM";
    memcpy(composite + 2, units + 2, 8);
    memcpy(composite + 10, units + 12, 8);
    memcpy(unit_behind, units, 10);
    writes(iscc_code, label, strlen(label), ISCC_CODE_AREA, ISCC_OK, composite, 18, "code of a label");
    writes(iscc_code, other, strlen(other), 50, ISCC_OK, composite, 18, "code of another label");
    refuses(iscc_code, label, strlen(label), 41, ISCC_AREA_TOO_SHORT, "code, area of 41");
    refuses(iscc_code, "A1", 2, 41, ISCC_AREA_TOO_SHORT, "code, area of 41");
    refuses(iscc_code, "A1", 2, ISCC_CODE_AREA, ISCC_BAD_CHARACTER, "code of A1");
    refuses(iscc_code, NULL, 0, ISCC_CODE_AREA, ISCC_EMPTY_TEXT, "code of no text");
    writes(iscc_text, composite, 18, ISCC_TEXT_AREA, ISCC_OK, text, strlen(text), "text of a code");
    refuses(iscc_text, composite, 18, 72, ISCC_AREA_TOO_SHORT, "text, area of 72");
    refuses(iscc_text, composite, 17, ISCC_TEXT_AREA, ISCC_SHORT_BODY, "text of a cut code");
    refuses(iscc_text, unit_behind, 11, ISCC_TEXT_AREA, ISCC_BYTES_LEFT_OVER, "text of a unit and a byte");
    refuses(iscc_text, units, 20, ISCC_TEXT_AREA, ISCC_BYTES_LEFT_OVER, "text of two units");
    refuses(iscc_text, NULL, 0, ISCC_TEXT_AREA, ISCC_BAD_HEADER, "text of no code");
    writes(iscc_join, units, 20, 18, ISCC_OK, composite, 18, "join");
    refuses(iscc_join, units, 20, 17, ISCC_AREA_TOO_SHORT, "join, area of 17");
    refuses(iscc_join, units, 10, 42, ISCC_LACKS_DATA_OR_INSTANCE, "join of one unit");
    writes(iscc_split, composite, 18, 20, ISCC_OK, units, 20, "split");
    refuses(iscc_split, composite, 18, 19, ISCC_AREA_TOO_SHORT, "split, area of 19");
    refuses(iscc_split, units, 10, 20, ISCC_NOT_PERMITTED, "split of a unit");
}

/* A wide composite: its text in two spellings, its code, and its units of 128 bits, which cannot be joined again. */
static void wide(void) {
    const uint8_t units[36] = {0x30, 0x03, 0x00, 0x01, 0x02, 0x03, 0x04, 0x05, 0x06, 0x07, 0x08, 0x09,
                               0x0a, 0x0b, 0x0c, 0x0d, 0x0e, 0x0f, 0x40, 0x03, 0x10, 0x11, 0x12, 0x13,
                               0x14, 0x15, 0x16, 0x17, 0x18, 0x19, 0x1a, 0x1b, 0x1c, 0x1d, 0x1e, 0x1f};
    uint8_t other_length[42] = {0x57, 0x01}, behind[35] = {0}, list[44] = {0x40, 0x01};
    written(WIDE, WIDE);
    written(WIDE + 5, WIDE);
    written(SMALL_WIDE, WIDE);
    refused("GABQAAICAMCAKBQHBAEQUCYMBUHA6QADCAIREEYUCULBOGAZDINRYHI6D4", ISCC_NOT_64_BITS); /* its units */
    refused("GAAW2PRCRS5LNVZV-K4AAAAICAMCAKBQHBAEQUCYMBUHA6EARCIJRIFIWC4MBSGQ3DQOR4HY", ISCC_NOT_JOINABLE);
    refused("K4AAAAICAMCAKBQHBAEQUCYMBUHA6EARCIJRIFIWC4MBSGQ3DQOR4", ISCC_SHORT_BODY);
    memcpy(behind, wide_code, sizeof wide_code);
    memcpy(list + 10, wide_code, sizeof wide_code);
    writes(iscc_code, WIDE, strlen(WIDE), ISCC_CODE_AREA, ISCC_OK, wide_code, 34, "code of a wide text");
    writes(iscc_code, SMALL_WIDE, strlen(SMALL_WIDE), 50, ISCC_OK, wide_code, 34, "code of a wide text in small letters");
    writes(iscc_text, wide_code, 34, ISCC_TEXT_AREA, ISCC_OK, WIDE, strlen(WIDE), "text of a wide composite");
    refuses(iscc_text, wide_code, 33, ISCC_TEXT_AREA, ISCC_SHORT_BODY, "text of a cut wide composite");
    refuses(iscc_text, other_length, 42, ISCC_TEXT_AREA, ISCC_NOT_PERMITTED, "text of 57 01");
    writes(iscc_split, wide_code, 34, 36, ISCC_OK, units, 36, "split of a wide composite");
    writes(iscc_split, wide_code, 34, ISCC_SPLIT_AREA, ISCC_OK, units, 36, "split of a wide composite");
    refuses(iscc_split, wide_code, 34, 35, ISCC_AREA_TOO_SHORT, "split of a wide composite, area of 35");
    refuses(iscc_split, wide_code, 33, 36, ISCC_SHORT_BODY, "split of a cut wide composite");
    refuses(iscc_split, behind, 35, 36, ISCC_BYTES_LEFT_OVER, "split of a wide composite and a byte");
    refuses(iscc_split, other_length, 42, ISCC_SPLIT_AREA, ISCC_NOT_PERMITTED, "split of 57 01");
    refuses(iscc_join, units, 36, ISCC_CODE_AREA, ISCC_NOT_64_BITS, "join of two units of 128 bits");
    refuses(iscc_join, wide_code, 34, ISCC_CODE_AREA, ISCC_NOT_JOINABLE, "join of a wide composite");
    refuses(iscc_join, list, 44, ISCC_CODE_AREA, ISCC_NOT_JOINABLE, "join of a unit and a wide composite");
    refuses(iscc_join, other_length, 42, ISCC_CODE_AREA, ISCC_NOT_PERMITTED, "join of 57 01");
}

static void say_again(void) {
    printf("  run again: %s%s --only %s\n", BY, program, block_name);
    fflush(stdout);
}

/* A call that crashes, or a report of the compiler's checks, ends the program: it still says in which block. */
static void on_signal(int number) {
    printf("FAILED console, %s: signal %d\n", block_name, number);
    say_again();
    _Exit(1);
}

#ifdef __SANITIZE_ADDRESS__
void __sanitizer_set_death_callback(void (*callback)(void));
#endif

static void on(int number) {
    /* Not by signal(): it would let the same signal, come twice, end the program before it has printed. */
    struct sigaction action = {.sa_handler = on_signal};
    sigaction(number, &action, NULL);
}

static void say_where_it_ends(void) {
    on(SIGABRT);
    on(SIGTERM); /* as where a call does not end */
#ifdef __SANITIZE_ADDRESS__
    __sanitizer_set_death_callback(say_again); /* its own handlers have more to tell of the others */
#else
    on(SIGSEGV);
    on(SIGBUS);
    on(SIGFPE);
    on(SIGILL);
#endif
}

static void block(const char *name, void (*run)(void)) {
    block_name = name;
    block_ok = true;
    run();
    printf("%s console, %s\n", block_ok ? "ok" : "FAILED", name);
    if (!block_ok) say_again();
    if (block_ok) passed++;
    else failed++;
}

static const struct {
    const char *name;
    void (*run)(void);
} blocks[] = {
    {"line_case", line_case},   {"one_unit", one_unit},   {"short_texts", short_texts}, {"headers", headers}, {"areas", areas},
    {"long_texts", long_texts}, {"distances", distances}, {"codes", codes},             {"wide", wide},
    {"loans_one_code", loans_one_code},
    {"loans_places", loans_places},
    {"loans_full", loans_full},
    {"loans_any_order", loans_any_order},
    {"loans_looks", loans_looks},
    {"loans_four", loans_four},
    {"loans_alike", loans_alike},
    {"loans_wide", loans_wide},
    {"loans_texts", loans_texts},
    {"loans_lengths", loans_lengths},
    {"loans_damaged", loans_damaged},
    {"loans_wrong_codes", loans_wrong_codes},
    {"loans_wrong_order", loans_wrong_order},
    {"loans_wrong_pairs", loans_wrong_pairs},
    {"loans_from_elsewhere", loans_from_elsewhere},
    {"loans_counts_of_types", loans_counts_of_types},
    {"loans_counts_by_name", loans_counts_by_name},
    {"loans_counts_carried", loans_counts_carried},
    {"loans_wrong_counts", loans_wrong_counts},
    {"loans_older", loans_older},
    {"loans_numbers", loans_numbers},
    {"loans_first_number", loans_first_number},
    {"loans_numbers_spent", loans_numbers_spent},
    {"loans_only_read", loans_only_read},
    {"log_records", log_records},
    {"log_codes", log_codes},
    {"log_room", log_room},
    {"log_wide", log_wide},
    {"log_every_cut", log_every_cut},
    {"log_stops", log_stops},
    {"log_no_records", log_no_records},
    {"log_moves", log_moves},
    {"log_full", log_full},
    {"log_counts", log_counts},
    {"log_not_a_register", log_not_a_register},
    {"log_only_read", log_only_read},
    {"log_numbers", log_numbers},
    {"log_gaps", log_gaps},
    {"log_skips", log_skips},
    {"log_skipped_damage", log_skipped_damage},
    {"log_again", log_again},
    {"log_live_number", log_live_number},
    {"log_spent", log_spent},
    {"log_older", log_older},
    {"promote_yes", promote_yes},
    {"promote_not_a_register", promote_not_a_register},
    {"promote_short_work", promote_short_work},
    {"promote_stops", promote_stops},
    {"promote_every_cut", promote_every_cut},
    {"promote_least", promote_least},
    {"promote_borrowers", promote_borrowers},
    {"promote_last_numbers", promote_last_numbers},
    {"promote_full", promote_full},
    {"promote_null", promote_null},
    {"promote_overlap", promote_overlap},
    {"promote_only_read", promote_only_read},
    {"promote_two_sources", promote_two_sources},
    {"promote_drill", promote_drill},
    {"promote_drill_torn", promote_drill_torn},
};

static int usage(void) {
    fprintf(stderr, "usage: %s [--only BLOCK]\nblocks:", program);
    for (size_t i = 0; i < sizeof blocks / sizeof *blocks; i++) fprintf(stderr, " %s", blocks[i].name);
    fprintf(stderr, "\n");
    return 2;
}

int main(int count, char **words) {
    program = words[0];
    if (count != 1 && !(count == 3 && strcmp(words[1], "--only") == 0)) return usage();
    setvbuf(stdout, NULL, _IOLBF, BUFSIZ);
    say_where_it_ends();
    for (size_t i = 0; i < sizeof blocks / sizeof *blocks; i++)
        if (count == 1 || strcmp(words[2], blocks[i].name) == 0) block(blocks[i].name, blocks[i].run);
    if (passed + failed == 0) return usage();
    printf("%d passed, %d failed\n", passed, failed);
    return failed != 0;
}
