/*
 * The C interface of the console: both doors, the code of a text and the text of a code, join and
 * split, and the distance between two units. The loans register and its log are in loans.h, which
 * includes this header.
 *
 * Linking. pkg-config knows where both headers and their libraries are installed:
 *
 *   gcc program.c $(pkg-config --cflags --libs iscc)
 *
 * A program can also be linked with the static library alone, libiscc.a, which lies beside the
 * shared one; it is enough for everything in both headers.
 *
 * In the source repository `./install PREFIX` makes and installs all of this, and `rt lib` in
 * crates/console makes the static library alone, crates/console/out/libconsole.a. The same
 * source, with the same rt and gcc, gives the same libraries byte for byte, in whatever folder they
 * are built.
 *
 * No memory is taken and nothing is kept between calls, so that every entry of this header may run
 * in several threads at once.
 *
 * Words. An item is one unit or one composite: the bytes of its header and its body. The units in a
 * composite are of 64 bits, but in a wide one, which has DATA and INSTANCE alone, of 128. A list is
 * two or more items laid end to end.
 *
 * Areas. An area is a pointer and a length in bytes. It must be as long as stated, and an area for
 * writing must not overlap one for reading; nothing else is taken on trust. A null pointer with
 * length 0 is an empty area. Text is bytes: it needs no NUL at its end, and none is written.
 *   - Areas for reading keep their bytes. They may overlap each other: a unit may be compared with
 *     itself.
 *   - On success the answer's `length` bytes are written at the start of the output area; the bytes
 *     behind them keep theirs.
 *   - A refusal leaves every byte of the output area, and every other number of the answer is zero.
 */
#ifndef ISCC_H
#define ISCC_H

#include <stddef.h>
#include <stdint.h>

#ifdef __cplusplus
extern "C" {
#endif

/*
 * The version of both headers. The shared library's name has the major version alone, libiscc.so.0,
 * so that a program built for one major version does not start with another. Before 1.0 a new minor
 * version may change answers and arguments under the same name, as 0.7 did with those of the loans
 * register and its log: a program compares iscc_version() with ISCC_VERSION before it calls them.
 */
#define ISCC_VERSION_MAJOR 0
#define ISCC_VERSION_MINOR 8
#define ISCC_VERSION_PATCH 0
#define ISCC_VERSION_TEXT "0.8.0"
#define ISCC_VERSION \
    (ISCC_VERSION_MAJOR * 65536 + ISCC_VERSION_MINOR * 256 + ISCC_VERSION_PATCH)

/* The version of the library that is linked, as a number like ISCC_VERSION. */
uint32_t iscc_version(void);

/*
 * What a call answers: ISCC_OK or the number of a refusal. No call gives all of them; each names
 * its own, below or in loans.h, in the order of its tests. The first test that fails gives the
 * number. 28 to 35 are given by no call.
 */
enum iscc_number {
    ISCC_OK = 0,
    ISCC_EMPTY_TEXT = 1,              /* nothing is left once blanks, scheme and hyphens go */
    ISCC_LONG_TEXT = 2,               /* the text is longer than 1,024 bytes */
    ISCC_LONG_RUN = 3,                /* more than 80 characters are left */
    ISCC_BAD_CHARACTER = 4,           /* a character is not of the alphabet: A-Z, a-z, 2-7 */
    ISCC_BAD_COUNT = 5,               /* the count leaves 1, 3 or 6 over a multiple of 8 */
    ISCC_SPARE_BITS = 6,              /* a spare bit after the last whole byte is not zero */
    ISCC_BAD_HEADER = 7,              /* header cut, number that starts 1111, or pad nibble not 0 */
    ISCC_NOT_PERMITTED = 8,           /* a header is not permitted; for split, not a composite's */
    ISCC_SHORT_BODY = 9,              /* fewer body bytes than the header says */
    ISCC_NOT_JOINABLE = 10,           /* a composite or an ID in a list, or joined alone */
    ISCC_NOT_64_BITS = 11,            /* a unit in a list is not of 64 bits */
    ISCC_MAIN_TYPE_TWICE = 12,        /* a main type is twice in a list */
    ISCC_LACKS_DATA_OR_INSTANCE = 13, /* a list lacks DATA or INSTANCE, or one unit joined alone */
    ISCC_SUBTYPES_DIFFER = 14,        /* SEMANTIC and CONTENT of a list differ in subtype */
    ISCC_AREA_TOO_SHORT = 15,         /* the output area is too short */
    ISCC_OTHER_TEXT = 16,             /* strict door: intake would write another text */
    ISCC_NUMBER_TOO_LARGE = 17,       /* above 4679 in a header; by no call of either header */
    ISCC_NO_DISTANCE = 18,            /* the two items have no distance */
    ISCC_BYTES_LEFT_OVER = 19,        /* bytes left over where exactly one item is wanted */

    /* By the calls of loans.h alone: */
    ISCC_ALREADY_OUT = 20,            /* the code is out already */
    ISCC_ALL_OUT = 21,                /* 256 other codes are out: no place is free */
    ISCC_NOT_OUT = 22,                /* a return or a question, and the code is not out */
    ISCC_NOT_REGISTER = 23,           /* the area is not a register */
    ISCC_NOT_RECORD = 24,             /* a record, its number or its code is none for the log */
    ISCC_NUMBER_GAP = 25,             /* replay: a record is missing before this one */
    ISCC_NUMBERS_SPENT = 26,          /* an issue or a return, and no record number is left */
    ISCC_LAST_NUMBERS_DIFFER = 27,    /* promotion: only the last numbers differ */
    ISCC_LOG_TORN = 36,               /* promotion: the log is torn */
    ISCC_LOANS_DIFFER = 37            /* promotion: a code is in one only, or another borrower's */
};

/*
 * A plain English sentence for a number, on one line, to be shown to a person. It is never null and
 * need not be freed. These are words and not proved; they stand here so that the static library is
 * enough. The shared library has the same function, for languages that read no header.
 */
#ifndef ISCC_INLINE
#define ISCC_INLINE static inline
#endif
ISCC_INLINE const char *iscc_refusal_text(uint32_t number) {
    switch (number) {
    case ISCC_OK: return "Accepted.";
    case ISCC_EMPTY_TEXT: return "There is no code in the text.";
    case ISCC_LONG_TEXT: return "The text is longer than 1,024 bytes.";
    case ISCC_LONG_RUN: return "The code has more than 80 characters.";
    case ISCC_BAD_CHARACTER: return "A character is neither a letter A to Z nor a digit 2 to 7.";
    case ISCC_BAD_COUNT: return "No code has this many characters: some are missing or too many.";
    case ISCC_SPARE_BITS: return "The last character is wrong, or the end of the code is missing.";
    case ISCC_BAD_HEADER: return "The beginning of a code or unit cannot be read.";
    case ISCC_NOT_PERMITTED: return "A code or unit is of a kind or a length that is not permitted here.";
    case ISCC_SHORT_BODY: return "A code or unit is cut off: it is shorter than its beginning says.";
    case ISCC_NOT_JOINABLE: return "A composite or an ID cannot be joined.";
    case ISCC_NOT_64_BITS: return "A unit to be joined has a length other than 64 bits.";
    case ISCC_MAIN_TYPE_TWICE: return "Two units are of the same kind.";
    case ISCC_LACKS_DATA_OR_INSTANCE: return "The DATA or the INSTANCE unit is missing.";
    case ISCC_SUBTYPES_DIFFER: return "The SEMANTIC and the CONTENT unit do not match in subtype.";
    case ISCC_AREA_TOO_SHORT: return "An area to be written to is too short.";
    case ISCC_OTHER_TEXT: return "The code is good, but not in its one strict spelling.";
    case ISCC_NUMBER_TOO_LARGE: return "A number above 4679 cannot be written in a header.";
    case ISCC_NO_DISTANCE: return "These two have no distance.";
    case ISCC_BYTES_LEFT_OVER: return "Bytes are left over after the code.";
    case ISCC_ALREADY_OUT: return "This code is out already.";
    case ISCC_ALL_OUT: return "No more can go out: 256 other codes are out.";
    case ISCC_NOT_OUT: return "This code is not out.";
    case ISCC_NOT_REGISTER: return "The register is damaged, or this is no register.";
    case ISCC_NOT_RECORD: return "This is no record of the log.";
    case ISCC_NUMBER_GAP: return "A record is missing before this one.";
    case ISCC_NUMBERS_SPENT: return "No record number is left: this register takes no more changes.";
    case ISCC_LAST_NUMBERS_DIFFER: return "The same codes are out, but the last record numbers differ.";
    case ISCC_LOG_TORN: return "The log is torn: its last record is not whole.";
    case ISCC_LOANS_DIFFER: return "A code is out in one register only, or to another borrower.";
    default: return "There is no such number.";
    }
}

/* The longest text that is written, and the least output area of iscc_intake and iscc_text. */
#define ISCC_TEXT_AREA 73

/* The longest code in bytes, and the least output area of iscc_code; enough for iscc_join. */
#define ISCC_CODE_AREA 42

/* The most bytes that iscc_split writes: five units. */
#define ISCC_SPLIT_AREA 50

/* ISCC_OK and the count of bytes written, or a refusal and 0. */
typedef struct {
    uint32_t number;
    size_t length;
} iscc_written;

/*
 * ISCC_OK, the differing bits among the first n, the shorter body's bits n, and d / n rounded once
 * to a float; or a refusal, 0, 0 and +0.0. d is at most n, and n at most 256. Where n is 32, 64,
 * 128 or 256 the ratio is exact.
 */
typedef struct {
    uint32_t number;
    uint32_t d;
    uint32_t n;
    float ratio;
} iscc_distance_answer;

/*
 * The intake door: reads a code as it was typed (blanks at both ends, the scheme in any letter
 * case, hyphens, either case, units in any order) and writes its one text, `ISCC:` and capitals.
 *
 * Refusals: 15 where the area is below ISCC_TEXT_AREA bytes, whatever the text; 2, 1, 3, 4, 5, 6;
 * then 7, 8, 9 for each item from the left; then, for a list, 10 to 14.
 */
iscc_written iscc_intake(const uint8_t *text, size_t text_len, uint8_t *out, size_t out_len);

/*
 * The strict door: ISCC_OK exactly if intake would write this very text; else 2, 1, 3 to 14 as
 * intake, then 16.
 */
uint32_t iscc_strict(const uint8_t *text, size_t text_len);

/*
 * The code of a text: its bytes, those of the one unit or composite that the text means. Two typed
 * labels mean the same exactly when these bytes are the same.
 *
 * Refusals: 15 where the area is below ISCC_CODE_AREA bytes, whatever the text; then 2, 1, 3 to 14
 * as intake.
 */
iscc_written iscc_code(const uint8_t *text, size_t text_len, uint8_t *out, size_t out_len);

/*
 * The text of a code: writes the one text of the item that the bytes are.
 *
 * Refusals: 15 where the area is below ISCC_TEXT_AREA bytes, whatever the code; then 7, 8, 9, 19 of
 * the bytes.
 */
iscc_written iscc_text(const uint8_t *code, size_t code_len, uint8_t *out, size_t out_len);

/*
 * Joins units laid end to end to the composite that they make, whatever their order. That is never
 * a wide one: its two units are 11.
 *
 * Refusals: 7, 8, 9 for each item from the left (no bytes are 7); of one item alone 10 for a
 * composite or an ID, else 13, whatever its length; of a list 10 to 14; then 15 where the area is
 * shorter than the composite (18, 26, 34 or 42 bytes).
 */
iscc_written iscc_join(const uint8_t *units, size_t units_len, uint8_t *out, size_t out_len);

/*
 * Splits a composite into its units, laid end to end in the composite's order: 10 bytes for each,
 * or 18 for each of the two of a wide composite.
 *
 * Refusals: 7, 8, 9, 19 of the bytes, then 8 for anything but a composite, then 15 where the area
 * is shorter than the units (20, 30, 40 or 50 bytes, or 36 of a wide composite).
 */
iscc_written iscc_split(const uint8_t *code, size_t code_len, uint8_t *out, size_t out_len);

/*
 * The distance between two units, each an area of its bytes (header and body, not text).
 *
 * Refusals: 7, 8, 9, 19 of the first area, the same of the second, then 18 unless both have the
 * same main type of META, SEMANTIC, CONTENT and DATA and the same subtype.
 */
iscc_distance_answer iscc_distance(const uint8_t *a, size_t a_len, const uint8_t *b, size_t b_len);

#ifdef __cplusplus
}
#endif

#endif
