/*
 * May the standby take over? As an operator asks it on the night of a drill: nine loans are typed
 * at the counter as lists of units, in small letters and in any order, and logged. First the
 * standby's replica has none of them, then the log comes torn, then the replica is brought up to
 * it; another hall typed the same loans as composites. Each answer is told in one sentence: what it
 * means and what to do. Behind the drill every other answer is made to happen once. The exit status
 * is 1 where an answer is not the one that is due.
 *
 *   ./install target/installed
 *   export PKG_CONFIG_PATH=$PWD/target/installed/lib/pkgconfig
 *   export LD_LIBRARY_PATH=$PWD/target/installed/lib
 *   gcc examples/c/promote.c $(pkg-config --cflags --libs iscc) -o target/promote
 *   target/promote
 *
 * Without installing, with the archive alone:
 *
 *   (cd crates/console && rt lib)
 *   gcc -Iinclude examples/c/promote.c crates/console/out/libconsole.a -o target/promote
 */
#include "loans.h"

#include <stdio.h>
#include <string.h>

enum { NINE = 9, TOO_MANY = LOANS_PLACES + 1 };

static const char *const typed[NINE] = {
    "gaaqwketqbo2qecu-iaa6xiv7lxaq2gts",
    "iaavizdreaumro5n-gaatho3sqsnsbaab-aaazxbo7m2amyknu",
    "eea3zowykhmqejqs-iaazcfhb6v4cytrs-gaa5udlgacvdgnrp",
    "iaa4ifitgux6cwdd-gaatubc5wb3rty7r",
    "gaauxtqfwv22fsx2-eaa6llujvxrkyrcv-iaa5nnvqzthcygdj",
    "iaa5kt66odpbssko-aaatckeyrsjaoub3-gaaz7p5dlshpdwkv",
    "iaazt2ymrkjkqn67-ciatjjk6yjyaxmrk-gaa7ky5p54ysw4y6",
    "gaa66crnnkzvputd-iaaxh2jmlbd7gakn",
    "gaatberypscybcwu-iaa5gyqjztfcafca-eeaqcvq6nep4xh4h",
};

/* Static memory begins as zeros: nothing is out yet. The work area is for loans_promote alone. */
static uint8_t counter[LOANS_REGISTER_AREA], standby[LOANS_REGISTER_AREA];
static uint8_t hall[LOANS_REGISTER_AREA], work[LOANS_REGISTER_AREA];

/* The log of the nine, with room for more than may be out. */
static uint8_t records[TOO_MANY * LOANS_LOG_RECORD_MOST];

#define ANEW "get all of the log, replay it onto zeros, and ask again"
#define FETCH "get the counter's own log, from its start, and ask again"

/* For each answer what it means, with the offset in the log where `at` is 1, and what to do. */
static const struct {
    uint32_t number;
    int at;
    const char *means, *to_do;
} sentences[] = {
    {ISCC_OK, 0, "yes: the log gives this replica", "promote it, if all of the log has come"},
    {ISCC_NOT_REGISTER, 0, "no: the replica is damaged, or no register", ANEW},
    {ISCC_AREA_TOO_SHORT, 0, "no: the work area is too short", "lend 12,308 bytes, and ask again"},
    {ISCC_NOT_RECORD, 1, "no: the log has bytes that are no record", FETCH},
    {ISCC_NUMBER_GAP, 1, "no: the log lacks a record before one that it has", FETCH},
    {ISCC_ALREADY_OUT, 1, "no: the log issues a code that is out already", FETCH},
    {ISCC_ALL_OUT, 1, "no: the log issues a code where 256 others are out", FETCH},
    {ISCC_NOT_OUT, 1, "no: the log takes back a code that is not out", FETCH},
    {ISCC_LOG_TORN, 1, "no: the log ends inside a record", "get the rest of it, and ask again"},
    {ISCC_LOANS_DIFFER, 0, "no: log and replica differ", ANEW},
    {ISCC_LAST_NUMBERS_DIFFER, 0, "no: the same loans, but another last number", ANEW},
};

/* Who has a code by a register. A borrower may be 0: only the number says whether there is one. */
static void tell_holder(const char *by, const uint8_t *text, size_t length, const uint8_t *area) {
    loans_holder holder = loans_ask(text, length, area, LOANS_REGISTER_AREA);
    printf("by the %s ", by);
    if (holder.number == ISCC_OK) printf("borrower %u has it", (unsigned)holder.borrower);
    else printf("nobody has it");
}

/* The code of a 37: the work area then has the register that the log gives. */
static void tell_difference(const loans_verdict *answer, const uint8_t *replica) {
    uint8_t text[ISCC_TEXT_AREA];
    size_t length = iscc_text(answer->code, answer->code_length, text, sizeof text).length;
    printf(" about %.*s,\n  ", (int)length, (const char *)text);
    tell_holder("log", text, length, work);
    printf(", ");
    tell_holder("replica", text, length, replica);
}

static void tell(const loans_verdict *answer, const uint8_t *replica) {
    for (size_t i = 0; i < sizeof sentences / sizeof *sentences; i++) {
        if (sentences[i].number != answer->number) continue;
        printf("  %s", sentences[i].means);
        if (sentences[i].at) printf(" (at byte %u)", (unsigned)answer->offset);
        if (answer->number == ISCC_LOANS_DIFFER) tell_difference(answer, replica);
        printf(":\n  %s.\n", sentences[i].to_do);
    }
}

/* Asks on these areas, tells the answer, and says whether it is the one that is due. */
static int answered(const char *when, loans_verdict due, const uint8_t *log, size_t log_len,
                    const uint8_t *replica, size_t work_len) {
    loans_verdict answer =
        loans_promote(log, log_len, replica, LOANS_REGISTER_AREA, work, work_len);
    printf("%s: %u\n", when, (unsigned)answer.number);
    tell(&answer, replica);
    return answer.number == due.number && answer.offset == due.offset &&
           answer.code_length == due.code_length &&
           memcmp(answer.code, due.code, sizeof due.code) == 0;
}

/* The same of the standby's replica, for an answer without a code. */
static int at_standby(const char *when, uint32_t number, size_t offset, const uint8_t *log,
                      size_t log_len) {
    loans_verdict due = {.number = number, .offset = offset};
    return answered(when, due, log, log_len, standby, sizeof work);
}

/* Issues a label and logs it at the position; answers the next one. The other hall types the
 * composite. The least code of all is the one that a 37 has to tell. */
static size_t issue(const char *label, uint32_t borrower, size_t position, loans_verdict *least) {
    uint8_t code[ISCC_CODE_AREA] = {0}, composite[ISCC_TEXT_AREA];
    const uint8_t *text = (const uint8_t *)label;
    size_t length = iscc_code(text, strlen(label), code, sizeof code).length;
    size_t written = iscc_intake(text, strlen(label), composite, sizeof composite).length;
    loans_changed done = loans_issue(text, strlen(label), borrower, counter, sizeof counter);
    loans_issue(composite, written, borrower, hall, sizeof hall);
    if (least->code_length == 0 || memcmp(code, least->code, sizeof code) < 0) {
        memcpy(least->code, code, sizeof code);
        least->code_length = length;
    }
    return position + loans_log_issue(records, sizeof records, position, done.record_number, code,
                                      length, borrower).length;
}

/* Logs with a record that stops the replay: behind the nine, or without the first of them. */
static int stops(size_t second, size_t end) {
    const uint8_t unit[] = {0x30, 0, 0, 0, 0, 0};
    size_t back, rest = end - second;
    if (!at_standby("zeros behind the log", ISCC_NOT_RECORD, end, records, end + 3)) return 0;
    if (!at_standby("the first lost", ISCC_NUMBER_GAP, 0, records + second, rest)) return 0;
    memcpy(records + end, records, second);
    records[end + 6] = NINE + 1; /* its number is the next */
    if (!at_standby("the first twice", ISCC_ALREADY_OUT, end, records, end + second)) return 0;
    back = loans_log_return(records, sizeof records, end, NINE + 1, unit, sizeof unit).length;
    return at_standby("a return alone", ISCC_NOT_OUT, end, records, end + back);
}

/* A log of more issues than there are places. */
static int stops_full(void) {
    uint8_t unit[] = {0x30, 0, 0, 0, 0, 0};
    size_t last = 0, end = 0;
    for (uint32_t i = 0; i < TOO_MANY; i++) {
        unit[4] = (uint8_t)(i >> 8);
        unit[5] = (uint8_t)i;
        last = end;
        end += loans_log_issue(records, sizeof records, last, i + 1, unit, sizeof unit, i).length;
    }
    return at_standby("257 issues", ISCC_ALL_OUT, last, records, end);
}

int main(void) {
    const uint8_t *other = (const uint8_t *)"MAAGZTFQTTVIZPJR";
    loans_verdict least = {.number = ISCC_LOANS_DIFFER}, yes = {.number = ISCC_OK};
    loans_verdict short_work = {.number = ISCC_AREA_TOO_SHORT};
    size_t starts[NINE + 1] = {0}, end;
    for (uint32_t i = 0; i < NINE; i++)
        starts[i + 1] = issue(typed[i], 1200 + i, starts[i], &least);
    end = starts[NINE];

    /* The drill. */
    if (!answered("the nine missing", least, records, end, standby, sizeof work)) return 1;
    if (!at_standby("the ninth torn", ISCC_LOG_TORN, starts[NINE - 1], records, end - 5)) return 1;
    if (loans_replay(records, end, standby, sizeof standby).end != LOANS_RAN) return 1;
    if (!at_standby("the nine replayed", ISCC_OK, 0, records, end)) return 1;
    if (!answered("the nine as composites", yes, records, end, hall, sizeof work)) return 1;

    /* Live calls at the standby take numbers, and a count that is not true is damage. */
    if (!answered("a short area", short_work, records, end, standby, sizeof work - 1)) return 1;
    loans_issue(other, 16, 77, standby, sizeof standby);
    loans_return(other, 16, standby, sizeof standby);
    if (!at_standby("two live calls", ISCC_LAST_NUMBERS_DIFFER, 0, records, end)) return 1;
    standby[1]++;
    if (!at_standby("a wrong count", ISCC_NOT_REGISTER, 0, records, end)) return 1;
    standby[1]--;
    return stops(starts[1], end) && stops_full() ? 0 : 1;
}
