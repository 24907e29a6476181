/*
 * Labels from the counter, as a console takes them in: one is written as its one text, and two are
 * compared. A label that is refused is told with its number and a sentence. Without labels it takes
 * two of its own. The exit status is 1 where a label is refused, and 2 for a wrong count of labels.
 *
 *   ./install target/installed
 *   export PKG_CONFIG_PATH=$PWD/target/installed/lib/pkgconfig
 *   export LD_LIBRARY_PATH=$PWD/target/installed/lib
 *   gcc examples/c/console.c $(pkg-config --cflags --libs iscc) -o target/console
 *   target/console 'GAAW2PRCRS5LNVZV-IAAUVACQKXE3V44W' 'iscc:iaauvacqkxe3v44w-gaaw2prcrs5lnvzv'
 *
 * Without installing, with the archive alone:
 *
 *   (cd crates/console && rt lib)
 *   gcc -Iinclude examples/c/console.c crates/console/out/libconsole.a -o target/console
 */
#include "iscc.h"

#include <stdio.h>
#include <string.h>

typedef struct {
    uint8_t bytes[ISCC_CODE_AREA];
    size_t length;
} code;

/* The code of a typed label; tells its refusal where there is none. */
static int code_of(const char *typed, code *c) {
    const uint8_t *text = (const uint8_t *)typed;
    iscc_written answer = iscc_code(text, strlen(typed), c->bytes, sizeof c->bytes);
    unsigned number = answer.number;
    if (number != ISCC_OK) printf("%s: refused %u: %s\n", typed, number, iscc_refusal_text(number));
    c->length = answer.length;
    return number == ISCC_OK;
}

/* Two typed labels mean the same exactly when their codes are the same bytes. */
static int same_code(const code *a, const code *b) {
    return a->length == b->length && memcmp(a->bytes, b->bytes, a->length) == 0;
}

int main(int count, char **words) {
    const char *one = count > 2 ? words[1] : "GAAW2PRCRS5LNVZV-IAAUVACQKXE3V44W";
    const char *two = count > 2 ? words[2] : "iscc:iaauvacqkxe3v44w-gaaw2prcrs5lnvzv";
    uint8_t text[ISCC_TEXT_AREA];
    code a, b;

    if (count != 1 && count != 3) {
        fprintf(stderr, "usage: console [LABEL LABEL]\n");
        return 2;
    }
    if (!code_of(one, &a) || !code_of(two, &b)) return 1;
    iscc_written written = iscc_text(a.bytes, a.length, text, sizeof text);
    printf("%.*s\n", (int)written.length, (const char *)text);

    /* What is written is what the strict door takes. */
    printf("strict %u\n", (unsigned)iscc_strict(text, written.length));
    printf("%s\n", same_code(&a, &b) ? "the same code" : "another code");

    /* The distance of two labels is that of their codes. */
    if (!code_of("gaaaaaaaaa", &a) || !code_of("GAAP6-AAAAE", &b)) return 1;
    iscc_distance_answer far = iscc_distance(a.bytes, a.length, b.bytes, b.length);
    printf("distance %u of %u bits, ratio %g\n", (unsigned)far.d, (unsigned)far.n, far.ratio);
    return 0;
}
