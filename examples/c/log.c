/*
 * The pending issues log, as a counter writes it and a standby in another hall reads it: two codes
 * are issued and one is taken back, each change with its record. The log is torn off inside the
 * last record; the standby makes its register from what came through. It replays the whole log when
 * the rest has come, and once more, which changes nothing. The exit status is 1 where an answer is
 * not the one that is due.
 *
 *   ./install target/installed
 *   export PKG_CONFIG_PATH=$PWD/target/installed/lib/pkgconfig
 *   export LD_LIBRARY_PATH=$PWD/target/installed/lib
 *   gcc examples/c/log.c $(pkg-config --cflags --libs iscc) -o target/log-example
 *   target/log-example
 *
 * Without installing, with the archive alone:
 *
 *   (cd crates/console && rt lib)
 *   gcc -Iinclude examples/c/log.c crates/console/out/libconsole.a -o target/log-example
 */
#include "loans.h"

#include <stdio.h>
#include <string.h>

/* Static memory begins as zeros: nothing is out yet, at the counter and at the standby. */
static uint8_t counter[LOANS_REGISTER_AREA];
static uint8_t standby[LOANS_REGISTER_AREA];

/* The log is the bytes up to the position, which the counter keeps beside it. */
static uint8_t records[1000];
static size_t position = 0;

/* Ends the line of a call: what was done, or why it was refused. */
static void tell(uint32_t number, const char *done) {
    if (number == ISCC_OK) printf("%s\n", done);
    else printf("refused %u: %s\n", (unsigned)number, iscc_refusal_text(number));
}

/* Before a change: without room for its record the log would lack it. */
static int has_room(void) {
    return sizeof records - position >= LOANS_LOG_RECORD_MOST;
}

/* Behind a change: its record, with the number that it was told. There is room for it. */
static void logged(uint32_t record_number, iscc_written record) {
    printf("done, record number %u logged\n", (unsigned)record_number);
    position += record.length;
}

static uint32_t issue(const char *typed, uint32_t borrower) {
    const uint8_t *text = (const uint8_t *)typed;
    uint8_t code[ISCC_CODE_AREA];
    loans_changed done = {ISCC_AREA_TOO_SHORT, 0};
    printf("counter: issue %s to %u: ", typed, (unsigned)borrower);
    if (has_room()) done = loans_issue(text, strlen(typed), borrower, counter, sizeof counter);
    if (done.number != ISCC_OK) {
        tell(done.number, "");
    } else {
        size_t length = iscc_code(text, strlen(typed), code, sizeof code).length;
        logged(done.record_number, loans_log_issue(records, sizeof records, position,
                                                   done.record_number, code, length, borrower));
    }
    return done.number;
}

static uint32_t take_back(const char *typed) {
    const uint8_t *text = (const uint8_t *)typed;
    uint8_t code[ISCC_CODE_AREA];
    loans_changed done = {ISCC_AREA_TOO_SHORT, 0};
    printf("counter: return %s: ", typed);
    if (has_room()) done = loans_return(text, strlen(typed), counter, sizeof counter);
    if (done.number != ISCC_OK) {
        tell(done.number, "");
    } else {
        size_t length = iscc_code(text, strlen(typed), code, sizeof code).length;
        logged(done.record_number, loans_log_return(records, sizeof records, position,
                                                    done.record_number, code, length));
    }
    return done.number;
}

static uint32_t ask(const char *typed) {
    const uint8_t *text = (const uint8_t *)typed;
    loans_holder holder = loans_ask(text, strlen(typed), standby, sizeof standby);
    char who[32];
    snprintf(who, sizeof who, "borrower %u", (unsigned)holder.borrower);
    printf("standby: ask %s: ", typed);
    tell(holder.number, who);
    return holder.number;
}

/* The standby replays the log, always from its start, as far as it has come; and how it ended. */
static loans_replayed replay(size_t length) {
    loans_replayed answer = loans_replay(records, length, standby, sizeof standby);
    unsigned at = (unsigned)answer.offset;
    printf("standby: replay of %u bytes: ", (unsigned)length);
    if (answer.end == LOANS_RAN) printf("every record is applied\n");
    if (answer.end == LOANS_TORN) printf("torn: the record at byte %u is not whole\n", at);
    if (answer.end == LOANS_STOPPED) printf("stopped by the record at byte %u: ", at);
    if (answer.number != ISCC_OK) tell(answer.number, "");
    return answer;
}

int main(void) {
    const char *label = "GAAW2PRCRS5LNVZV-IAAUVACQKXE3V44W";
    const char *typed = "iscc:iaauvacqkxe3v44w-gaaw2prcrs5lnvzv";
    const char *other = "MAAGZTFQTTVIZPJR";

    if (issue(label, 1204) != ISCC_OK) return 1;
    if (issue(other, 77) != ISCC_OK) return 1;
    if (take_back(typed) != ISCC_OK) return 1;

    /* The last five bytes are still on their way. */
    if (replay(position - 5).end != LOANS_TORN) return 1;
    if (ask(label) != ISCC_OK || ask(other) != ISCC_OK) return 1;

    /* Once they have come, the whole log: records that are applied already are skipped. */
    if (replay(position).end != LOANS_RAN) return 1;
    if (ask(label) != ISCC_NOT_OUT || ask(other) != ISCC_OK) return 1;
    if (memcmp(standby, counter, sizeof standby) != 0) return 1;
    printf("both registers are the same\n");

    /* A second time nothing is left to do. */
    if (replay(position).end != LOANS_RAN) return 1;
    if (memcmp(standby, counter, sizeof standby) != 0) return 1;
    printf("both registers are still the same\n");
    return 0;
}
