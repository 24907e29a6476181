/*
 * The loans register, as a counter keeps it: a code is issued, asked for, refused to a second
 * borrower and taken back, typed in several ways; the morning sheet says how many are out. Every
 * answer is told, a change with its record number, a refusal with its number and a sentence. The
 * exit status is 1 where an answer is not the one that is due.
 *
 *   ./install target/installed
 *   export PKG_CONFIG_PATH=$PWD/target/installed/lib/pkgconfig
 *   export LD_LIBRARY_PATH=$PWD/target/installed/lib
 *   gcc examples/c/loans.c $(pkg-config --cflags --libs iscc) -o target/loans
 *   target/loans
 *
 * Without installing, with the archive alone:
 *
 *   (cd crates/console && rt lib)
 *   gcc -Iinclude examples/c/loans.c crates/console/out/libconsole.a -o target/loans
 */
#include "loans.h"

#include <stdio.h>
#include <string.h>

/* The register lasts as long as its bytes. Static memory begins as zeros: nothing is out yet. */
static uint8_t area[LOANS_REGISTER_AREA];

/* Ends the line of a call: what was done, or why it was refused. */
static void tell(uint32_t number, const char *done) {
    if (number == ISCC_OK) printf("%s\n", done);
    else printf("refused %u: %s\n", (unsigned)number, iscc_refusal_text(number));
}

/* The same of a change: one that is done has the next record number, a refused one has none. */
static loans_changed tell_change(loans_changed changed) {
    char done[40];
    snprintf(done, sizeof done, "done, record number %u", (unsigned)changed.record_number);
    tell(changed.number, done);
    return changed;
}

static loans_changed issue(const char *typed, uint32_t borrower) {
    const uint8_t *text = (const uint8_t *)typed;
    printf("issue %s to %u: ", typed, (unsigned)borrower);
    return tell_change(loans_issue(text, strlen(typed), borrower, area, sizeof area));
}

static loans_changed take_back(const char *typed) {
    const uint8_t *text = (const uint8_t *)typed;
    printf("return %s: ", typed);
    return tell_change(loans_return(text, strlen(typed), area, sizeof area));
}

/* A borrower may be any number, 0 too: only the answer's own number says whether there is one. */
static loans_holder ask(const char *typed) {
    const uint8_t *text = (const uint8_t *)typed;
    loans_holder holder = loans_ask(text, strlen(typed), area, sizeof area);
    char who[32];
    snprintf(who, sizeof who, "borrower %u", (unsigned)holder.borrower);
    printf("ask %s: ", typed);
    tell(holder.number, who);
    return holder;
}

/* The morning sheet, by the counts that the register keeps. */
static loans_counted sheet(void) {
    loans_counted counted = loans_counts(area, sizeof area);
    char kinds[160];
    snprintf(kinds, sizeof kinds,
             "%u out: META %u, SEMANTIC %u, CONTENT %u, DATA %u, INSTANCE %u, ISCC %u, ID %u",
             (unsigned)counted.out, (unsigned)counted.meta, (unsigned)counted.semantic,
             (unsigned)counted.content, (unsigned)counted.data, (unsigned)counted.instance,
             (unsigned)counted.iscc, (unsigned)counted.id);
    printf("sheet: ");
    tell(counted.number, kinds);
    return counted;
}

int main(void) {
    /* One code: its units, the same in small letters the other way round, and the composite. */
    const char *label = "GAAW2PRCRS5LNVZV-IAAUVACQKXE3V44W";
    const char *typed = "iscc:iaauvacqkxe3v44w-gaaw2prcrs5lnvzv";
    const char *composite = "ISCC:KUAG2PRCRS5LNVZVJKAFAVOJXLZZM";
    const char *other = "MAAGZTFQTTVIZPJR";

    if (issue(label, 1204).record_number != 1) return 1;
    if (ask(typed).borrower != 1204) return 1;
    if (issue(composite, 77).number != ISCC_ALREADY_OUT) return 1;
    if (issue(other, 77).record_number != 2) return 1;
    if (sheet().out != 2) return 1;
    if (take_back(typed).record_number != 3) return 1;
    if (ask(label).number != ISCC_NOT_OUT) return 1;
    if (sheet().out != 1) return 1;
    return 0;
}
