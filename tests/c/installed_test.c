/*
 * What a program sees of an installed library, in C and in C++: prints the version, then each
 * number with its sentence, and last a number that there is not. The exit status is 1 where the
 * header's version is not the library's, a sentence could not be shown to a person, or it is not
 * the one that stands here, or the register, its log or its replica does not answer.
 */
#include <loans.h>

#include <stdio.h>
#include <string.h>

static int wrong = 0;

#define UNKNOWN "There is no such number."

/* Once more, by number: a sentence that changes places with another would still be a sentence. */
static const char *const due[] = {
    "Accepted.",
    "There is no code in the text.",
    "The text is longer than 1,024 bytes.",
    "The code has more than 80 characters.",
    "A character is neither a letter A to Z nor a digit 2 to 7.",
    "No code has this many characters: some are missing or too many.",
    "The last character is wrong, or the end of the code is missing.",
    "The beginning of a code or unit cannot be read.",
    "A code or unit is of a kind or a length that is not permitted here.",
    "A code or unit is cut off: it is shorter than its beginning says.",
    "A composite or an ID cannot be joined.",
    "A unit to be joined has a length other than 64 bits.",
    "Two units are of the same kind.",
    "The DATA or the INSTANCE unit is missing.",
    "The SEMANTIC and the CONTENT unit do not match in subtype.",
    "An area to be written to is too short.",
    "The code is good, but not in its one strict spelling.",
    "A number above 4679 cannot be written in a header.",
    "These two have no distance.",
    "Bytes are left over after the code.",
    "This code is out already.",
    "No more can go out: 256 other codes are out.",
    "This code is not out.",
    "The register is damaged, or this is no register.",
    "This is no record of the log.",
    "A record is missing before this one.",
    "No record number is left: this register takes no more changes.",
    "The same codes are out, but the last record numbers differ.",
    UNKNOWN, UNKNOWN, UNKNOWN, UNKNOWN, UNKNOWN, UNKNOWN, UNKNOWN, UNKNOWN, /* 28 to 35 */
    "The log is torn: its last record is not whole.",
    "A code is out in one register only, or to another borrower.",
    UNKNOWN,
};
typedef char one_for_each[sizeof due / sizeof due[0] == ISCC_LOANS_DIFFER + 2 ? 1 : -1];

static void expect(int holds, const char *what, uint32_t number) {
    if (holds) return;
    fprintf(stderr, "%lu: %s\n", (unsigned long)number, what);
    wrong = 1;
}

static void check_version(void) {
    char text[32];
    sprintf(text, "%d.%d.%d", ISCC_VERSION_MAJOR, ISCC_VERSION_MINOR, ISCC_VERSION_PATCH);
    expect(strcmp(text, ISCC_VERSION_TEXT) == 0, "another ISCC_VERSION_TEXT", ISCC_VERSION);
    expect(iscc_version() == ISCC_VERSION, "the library has another version", iscc_version());
    expect(ISCC_VERSION >> 16 == ISCC_VERSION_MAJOR, "another major version", ISCC_VERSION);
    expect((ISCC_VERSION >> 8) % 256 == ISCC_VERSION_MINOR, "another minor version", ISCC_VERSION);
    expect(ISCC_VERSION % 256 == ISCC_VERSION_PATCH, "another patch", ISCC_VERSION);
    printf("%s\n", ISCC_VERSION_TEXT);
}

/* One line of printable ASCII, at most 100 characters, with a full stop at the end and no other. */
static int is_sentence(const char *words) {
    size_t length = strlen(words), i;
    for (i = 0; i < length; i++)
        if (words[i] < 32 || words[i] > 126 || (words[i] == '.' && i + 1 < length)) return 0;
    return length > 1 && length <= 100 && words[length - 1] == '.';
}

static void check_words(uint32_t number) {
    const char *words = iscc_refusal_text(number);
    uint32_t other;
    expect(is_sentence(words), "no sentence", number);
    expect(strcmp(words, due[number]) == 0, "another sentence", number);
    if (strcmp(due[number], UNKNOWN) == 0) return;
    for (other = 0; other < number; other++)
        expect(strcmp(words, iscc_refusal_text(other)) != 0, "the words of another number", number);
    printf("%lu %s\n", (unsigned long)number, words);
}

/* C++ finds these calls only if their header says that they are C. */
static void check_register(void) {
    static uint8_t area[LOANS_REGISTER_AREA];
    const uint8_t *text = (const uint8_t *)"GAAAAAAAAA";
    loans_changed changed = loans_issue(text, 10, 5, area, sizeof area);
    expect(changed.number == ISCC_OK && changed.record_number == 1, "not issued", 5);
    expect(loans_ask(text, 10, area, sizeof area).borrower == 5, "another borrower", 5);
    expect(loans_ask(text, 10, area, sizeof area).looks == 1, "other looks", 1);
    expect(loans_counts(area, sizeof area).out == 1, "another count", 1);
    expect(loans_counts(area, sizeof area).data == 1, "another count of DATA", 1);
    expect(loans_counts(area, LOANS_LAST_NUMBER_OFFSET).number == ISCC_NOT_REGISTER,
           "counts of a shorter area", ISCC_NOT_REGISTER);
    changed = loans_return(text, 10, area, sizeof area);
    expect(changed.number == ISCC_OK && changed.record_number == 2, "not taken back", 5);
    expect(area[LOANS_LAST_NUMBER_OFFSET + 3] == 2, "another last number", 2);
    expect(loans_ask(text, 10, area, sizeof area).number == ISCC_NOT_OUT, "still out", 5);
    expect(loans_ask(text, 10, area, sizeof area).looks == 0, "other looks", 0);
    expect(loans_counts(area, sizeof area).number == ISCC_OK, "no counts", 0);
    expect(loans_counts(area, sizeof area).out == 0, "another count", 0);
}

static void check_log(void) {
    static uint8_t area[LOANS_REGISTER_AREA];
    static const uint8_t code[] = {0x30, 0, 0, 0, 0, 0};
    uint8_t log[2 * LOANS_LOG_RECORD_MOST];
    size_t first = loans_log_issue(log, sizeof log, 0, 1, code, sizeof code, 5).length;
    size_t second = loans_log_return(log, sizeof log, first, 2, code, sizeof code).length;
    loans_replayed answer = loans_replay(log, first + second - 1, area, sizeof area);
    expect(first == 17 && second == 13, "other records", 5);
    expect(answer.number == ISCC_OK && answer.end == LOANS_TORN, "no tear", answer.end);
    expect(answer.offset == first, "another offset", (uint32_t)answer.offset);
    expect(area[LOANS_COUNTS_BYTES] == sizeof code, "not replayed", 5);
    expect(area[LOANS_COUNTS_BYTES + 47] == 5, "another borrower", 5);
    expect(area[1] == 1 && area[9] == 1, "not counted", 1);
    expect(area[LOANS_LAST_NUMBER_OFFSET + 3] == 1, "another last number", 1);
    answer = loans_replay(log, first + second, area, sizeof area);
    expect(answer.number == ISCC_OK && answer.end == LOANS_RAN, "not replayed again", answer.end);
    log[first + 6] = 4;
    answer = loans_replay(log, first + second, area, sizeof area);
    expect(answer.number == ISCC_NUMBER_GAP && answer.offset == first, "no gap", answer.number);
}

/* The struct of the answer is the longest: C++ and C must mean the same bytes by it. */
static void check_promotion(void) {
    static uint8_t replica[LOANS_REGISTER_AREA], work[LOANS_REGISTER_AREA];
    static const uint8_t code[] = {0x30, 0, 0, 0, 0, 0};
    static const uint8_t rest[ISCC_CODE_AREA - sizeof code] = {0};
    uint8_t log[LOANS_LOG_RECORD_MOST];
    size_t length = loans_log_issue(log, sizeof log, 0, 1, code, sizeof code, 5).length;
    loans_verdict verdict = loans_promote(log, length, replica, sizeof replica, work, sizeof work);
    expect(verdict.number == ISCC_LOANS_DIFFER, "no difference", verdict.number);
    expect(verdict.offset == 0, "an offset", (uint32_t)verdict.offset);
    expect(verdict.code_length == sizeof code, "another length", (uint32_t)verdict.code_length);
    expect(memcmp(verdict.code, code, sizeof code) == 0, "another code", 37);
    expect(memcmp(verdict.code + sizeof code, rest, sizeof rest) == 0, "bytes behind the code", 37);
    expect(loans_replay(log, length, replica, sizeof replica).end == LOANS_RAN, "not replayed", 5);
    expect(memcmp(work, replica, sizeof work) == 0, "another register in the work area", 5);
    verdict = loans_promote(log, length, replica, sizeof replica, work, sizeof work);
    expect(verdict.number == ISCC_OK && verdict.code_length == 0, "not promoted", verdict.number);
    length += loans_log_return(log, sizeof log, length, 2, code, sizeof code).length;
    verdict = loans_promote(log, length - 1, replica, sizeof replica, work, sizeof work);
    expect(verdict.number == ISCC_LOG_TORN && verdict.offset == 17, "no tear", verdict.number);
}

int main(void) {
    const uint32_t unknown = ISCC_LOANS_DIFFER + 1;
    uint32_t number;
    check_version();
    check_register();
    check_log();
    check_promotion();
    for (number = ISCC_OK; number <= unknown; number++) check_words(number);
    expect(strcmp(iscc_refusal_text(0xFFFFFFFFu), UNKNOWN) == 0,
           "another unknown number has other words", 0xFFFFFFFFu);
    printf("%lu %s\n", (unsigned long)unknown, iscc_refusal_text(unknown));
    return wrong;
}
