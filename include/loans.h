/*
 * The loans register: a code is issued to a borrower and taken back, a question tells who has it,
 * and counts tell how many are out. And the pending issues log: issues and returns are written as
 * numbered records, from which another hall makes the register again; a last call says whether that
 * register, the replica, may be promoted. The calls are in the same libraries as those of iscc.h,
 * which says how to link them.
 *
 * Register. The register is one area of LOANS_REGISTER_AREA bytes that the caller lends to every
 * call: LOANS_COUNTS_BYTES of counts, behind them 256 places of 48 bytes, and from
 * LOANS_LAST_NUMBER_OFFSET on the last number. The counts are eight, in two bytes each, high byte
 * first:
 *
 *   bytes 0 and 1     the codes that are out
 *   bytes 2 and 3     those of them whose main type is 0, META
 *   bytes 4 and 5     1, SEMANTIC
 *   bytes 6 and 7     2, CONTENT
 *   bytes 8 and 9     3, DATA
 *   bytes 10 and 11   4, INSTANCE
 *   bytes 12 and 13   5, ISCC: composites, wide ones too, and so lists of units
 *   bytes 14 and 15   6, ID
 *
 * Each code has one of these main types, so that the seven sum to the first. A place holds one code
 * with its borrower, or it is free:
 *
 *   byte 0            the length of the code in bytes, 6 to 42; 0 where the place is free
 *   bytes 1 to 42     the code, as iscc_code writes it, filled up with zeros
 *   byte 43           zero
 *   bytes 44 to 47    the borrower, high byte first: any 32-bit number, 0 too
 *
 * The used places come first, in rising order of their codes. Codes are compared byte by byte; the
 * length byte takes no part in it. A free place is 48 zeros.
 *
 * Every change has a record number, 1 for the first. The last number is the record number of the
 * last change, in four bytes, high byte first, and 0 where there was none: an issue or a return
 * takes the next one and tells it, and a replay takes those of its records.
 *
 * So an area of zeros is a fresh register, in which nothing is out. No byte depends on the machine:
 * a register may be kept in a file and read elsewhere.
 *
 * A machine that stops inside a change may leave a place half written, a code twice or not at all,
 * and counts or a last number that are not true. That is mostly 23, but it need not be: keep a
 * copy, or the log.
 *
 * A code is out where it stands in a place. Texts that mean the same are one code, however they are
 * typed: what was issued by its separate units is out for a question that types the composite.
 *
 * An area is not a register, which is 23, where
 *   - its length is not LOANS_REGISTER_AREA;
 *   - a length byte is not 0, and as many bytes behind it are not exactly one permitted unit or
 *     composite;
 *   - a fill byte behind a code, a byte 43, or any byte of a place of length 0 is not zero;
 *   - a used place is behind a free one;
 *   - the codes of two used places, one right behind the other, do not rise: so also where a code
 *     stands in two places;
 *   - one of the eight counts is not what the used places give.
 * Every last number is good. No call turns a register into such an area. Every call on a register
 * tests the whole area, also one that only reads it: its time grows with the codes that are out.
 *
 * Log. A log is records, one behind the other, from byte 0 on. A record is
 *
 *   byte 0            the tag: 3 for an issue, 4 for a return
 *   bytes 1 and 2     the length of the body, high byte first
 *   bytes 3 to 6      the record number, high byte first, from 1 up
 *   from byte 7 on    for an issue the borrower in 4 bytes, high byte first, and then the code's
 *                     bytes, as iscc_code writes them; for a return the code's bytes alone
 *
 * and at most LOANS_LOG_RECORD_MOST bytes long; the body is all from byte 3 on. A whole record of
 * another tag, whose body is none of these two, or whose record number is 0, is 24. No byte depends
 * on the machine here either.
 *
 * The writer, loans_log_issue and loans_log_return, writes into an area that the caller lends, at a
 * position that the caller keeps: 0 for a new log, and from then on the end of the last record, so
 * that the caller adds each answer's length to it. The log is the part up to the position. Behind
 * it the area may hold anything, and none of that is to be handed to loans_replay: zeros there
 * would be a record of tag 0, which is 24.
 *
 * The log is what was done: write a record for each issue and each return that the register
 * accepted, in their order, with the record number that the answer told, and none for a refused
 * one. Replayed onto a register like the one before, such a log makes the one after, byte for byte.
 * A change without its record is found there: the record behind it stops the replay with 25.
 *
 * A replay skips each record whose number is not above the register's last number, since it is
 * applied already. So a log may be replayed again, from its start, as often as one likes: after a
 * tear, once more has come of it; onto an older copy of the register; or by mistake. A log that ran
 * to its end changes nothing the second time.
 *
 * Warning: a skip compares numbers and nothing else. So feed a register from one source: one takes
 * live calls, and is given no log but its own; another is made from that log by replay, and takes
 * no live calls. Fed from both, a register gives a live call the number of a record that is still
 * to come. That record is then skipped, whatever it says, and no replay tells it.
 *
 * Promotion. On the night, before the standby hall takes over, loans_promote says whether its
 * register, the replica, may be promoted. It replays the log from an empty register and compares
 * what comes out with the replica. ISCC_OK is yes: the log ran to its end, and both registers have
 * the same codes, borrowers and last number, and so the same bytes. Every other number is no.
 *
 * The caller lends the log and the replica, which are only read, and a work area of
 * LOANS_REGISTER_AREA bytes or more, which may hold anything. Afterwards its first
 * LOANS_REGISTER_AREA bytes are the register that the replay left, for loans_ask and loans_counts
 * to be called on it as on the replica; where a record stopped the replay, or the log is torn, the
 * register of the records before. On 23 and 15 the work area keeps its bytes.
 *
 * Yes holds for the log as far as it has come. A log that lags, cut off between two records, looks
 * whole: a replica that lags with it gets a yes, and lacks what was issued since. No call can tell
 * this. So it is the operator's concern to get all of the log: the number of its last record is the
 * counter's last number. The warning above stays true, also afterwards: a promoted replica takes
 * live calls, and so no more of the old log. A part of it that came late would be skipped, since
 * live calls have taken its numbers.
 *
 * Older versions. A register of a version before 0.7 is shorter, since it has no last number, and
 * so 23; a whole record of an older log has tag 1 or 2, and is 24. There is no converter. Replay
 * the old log with the version that wrote it: the old register then says which codes are out, in
 * places as above. Issue each of them to its borrower again, into an area of zeros, and write the
 * record of each into a new log. Do the same where the numbers are spent, which is 26.
 *
 * Areas. As in iscc.h an area is a pointer and a length in bytes, and must be as long as stated.
 * An area that a call may write to, the register, the writer's log or the work area, must not
 * overlap the text, the code, the log or the replica that it reads. Areas that are only read may
 * overlap each other: both of loans_ask, and the log and the replica of loans_promote. loans_counts
 * reads one area alone.
 * Beside this and the lock below nothing is taken on trust, no position and no byte of a log. A
 * null pointer with length 0 is an empty area: 1 as a text, 23 as a register, 24 as a code, 15 as
 * a work area, and as a log one without records.
 *   - Text is bytes and keeps them. It needs no NUL at its end. A code, a log and a replica that
 *     are read keep their bytes too.
 *   - The register is read and written in place. An issue or a return that is accepted keeps the
 *     bytes of every place before that of its code; from there on the used places move by one, up
 *     for an issue and down for a return. Two counts change by one: the first, and that of the
 *     code's main type. The last number becomes one more.
 *   - The writer changes the bytes of its record and no other, and reads none of the log.
 *   - The work area is written in its first LOANS_REGISTER_AREA bytes and in no other.
 *   - A refusal changes no byte, and neither do loans_ask and loans_counts. Of all calls two alone
 *     leave changes with a refusal: loans_replay, where the records before the one that stops it
 *     stay applied; and loans_promote, in its work area, with every refusal but 23 and 15.
 *
 * Threads. No memory is taken and nothing is kept between calls: all that lasts is in the register
 * and the log. So several threads may call at once where each has a register and a log of its own,
 * or where all only read them: where all ask or take the counts, or replay one log onto registers
 * of their own, or hold one log against one replica in work areas of their own. Otherwise the
 * caller holds a lock for the register, and one for the log and its position, over every call; over
 * a change and its record together, so that the log has them in their order.
 */
#ifndef LOANS_H
#define LOANS_H

#include "iscc.h"

#ifdef __cplusplus
extern "C" {
#endif

/*
 * The length of a register in bytes: its counts, then LOANS_PLACES places of LOANS_PLACE_BYTES,
 * then four bytes of the last number.
 */
#define LOANS_REGISTER_AREA 12308

/* Where the places start. */
#define LOANS_COUNTS_BYTES 16

/* Where the last number starts. */
#define LOANS_LAST_NUMBER_OFFSET 12304

/* The most codes that can be out. */
#define LOANS_PLACES 256

#define LOANS_PLACE_BYTES 48

/* The longest record of a log in bytes: an issue of the longest code. */
#define LOANS_LOG_RECORD_MOST 53

/* ISCC_OK and the record number that the change took; or a refusal and 0. */
typedef struct {
    uint32_t number;
    uint32_t record_number;
} loans_changed;

/*
 * ISCC_OK, the borrower, who may be 0, and how many places the question looked at; or ISCC_NOT_OUT,
 * 0, and how many places it looked at; or any other refusal, 0 and 0.
 */
typedef struct {
    uint32_t number;
    uint32_t borrower;
    uint32_t looks;
} loans_holder;

/*
 * ISCC_OK, how many codes are out, and how many of them are of each main type; or ISCC_NOT_REGISTER
 * and zeros.
 */
typedef struct {
    uint32_t number;
    uint32_t out;
    uint32_t meta;
    uint32_t semantic;
    uint32_t content;
    uint32_t data;
    uint32_t instance;
    uint32_t iscc;
    uint32_t id;
} loans_counted;

/*
 * Issues the code of a typed text to a borrower. It makes room at its place in the order: the used
 * places from there on move one up. It takes the next record number: one more than the last number.
 *
 * Refusals: 2, 1, 3 to 14 of the text, as iscc_intake, but never 15; then 23; then 26 where the
 * last number is 4,294,967,295, so that there is no next one; then 20 where the code is out
 * already, to this borrower or another; then 21 where LOANS_PLACES others are out. A refused issue
 * takes no number.
 */
loans_changed loans_issue(const uint8_t *text, size_t text_len, uint32_t borrower, uint8_t *area,
                          size_t area_len);

/*
 * Takes the code of a typed text back, whoever has it. It closes the gap: the used places behind it
 * move one down, and the last place that was used is filled with zeros and free. It takes the next
 * record number, as an issue does.
 *
 * Refusals: 2, 1, 3 to 14 of the text, as iscc_intake, but never 15; then 23; then 26, as
 * loans_issue; then 22 where the code is not out. A refused return takes no number.
 */
loans_changed loans_return(const uint8_t *text, size_t text_len, uint8_t *area, size_t area_len);

/*
 * Asks who has the code of a typed text. It looks at the middle of the used places that remain: the
 * first of them plus half their count, rounded down. Where another code stands there it goes on in
 * the part before or behind, and it ends where the code is found or no place remains. The answer's
 * `looks` tells how many places it looked at, on success and on 22: never more than 9. The test for
 * 23 looks at every place and is not counted.
 *
 * Refusals: as loans_return, but never 26: a question takes no number.
 */
loans_holder loans_ask(const uint8_t *text, size_t text_len, const uint8_t *area, size_t area_len);

/*
 * Tells how many codes are out, in all and by main type, as a morning sheet wants it: the eight
 * counts of the register. A composite, a wide one too, counts under `iscc`, whether it was typed as
 * such or as a list of its units, and not under the main types of its units. Nothing is out where
 * ISCC_OK comes with zeros; only the answer's own number tells that from a refusal.
 *
 * Refusals: 23.
 */
loans_counted loans_counts(const uint8_t *area, size_t area_len);

/*
 * Writes the record of an issue into the log, at the position. The answer's length is that of the
 * record, 17 to LOANS_LOG_RECORD_MOST bytes; the next position is behind it.
 *
 * The record number is the one that loans_issue told. That it is the next of this log is not
 * tested here: a replay does so. The code is bytes, as iscc_code writes them for a typed text.
 *
 * Refusals: 24 where the record number is 0, or the code's bytes are not exactly one permitted unit
 * or composite; then 15 where the area has no room for the record behind the position, or the
 * position is past its end.
 */
iscc_written loans_log_issue(uint8_t *log, size_t log_len, size_t position, uint32_t record_number,
                             const uint8_t *code, size_t code_len, uint32_t borrower);

/*
 * Writes the record of a return into the log, at the position: 13 to 49 bytes.
 *
 * Refusals: as loans_log_issue.
 */
iscc_written loans_log_return(uint8_t *log, size_t log_len, size_t position, uint32_t record_number,
                              const uint8_t *code, size_t code_len);

/* How a replay ended. A record that was skipped is applied too: it was so before. */
enum loans_end {
    LOANS_NOT_BEGUN = 0, /* the area is not a register: 23, and nothing was read of the log */
    LOANS_RAN = 1,       /* to the end of the log: every record is applied */
    LOANS_TORN = 2,      /* the log is torn: its rest is no whole record; the others are applied */
    LOANS_STOPPED = 3    /* a record stopped it: the number says why; those before are applied */
};

/*
 * ISCC_OK or a refusal; how the replay ended, one of enum loans_end; and where in the log: for
 * LOANS_TORN and LOANS_STOPPED the offset at which the torn record, or the one that stopped it,
 * starts. Else the offset is 0.
 */
typedef struct {
    uint32_t number;
    uint32_t end;
    size_t offset;
} loans_replayed;

/*
 * Applies the records of a log to a register, from the left, and skips those that are applied
 * already: their numbers are not above the last number. `log` is the log alone, up to the writer's
 * position.
 *
 * Wherever the log is torn off, the register afterwards is the one that the whole records before
 * the tear give. A tear is no refusal: a last record that is not whole, whatever its tag, is not
 * applied, and its offset is told. A cut between two records is no tear. Once the rest has come,
 * replay the whole log again.
 *
 * Refusals: 23, before anything is read of the log; then, for each whole record from the left, 24,
 * also for one whose number is applied already; then, unless it is skipped, 25 where its number is
 * not the next one, so that a record is missing before it; then 20 or 21 for an issue, 22 for a
 * return, as loans_issue and loans_return, but never 26. A record that is refused stops the replay:
 * it is not applied, and what is behind it is not read. The last number is that of the last record
 * that was applied.
 */
loans_replayed loans_replay(const uint8_t *log, size_t log_len, uint8_t *area, size_t area_len);

/*
 * May the replica be promoted? ISCC_OK is yes, and the rest is zeros. Else a refusal, with
 *   - the offset in the log, for 24, 25, 20, 21 and 22 that of the record that stopped the replay,
 *     for 36 that of the torn record; with the others 0;
 *   - the code, for 37 alone, as iscc_code writes it, filled up with zeros, and its length; with
 *     the others zeros and 0.
 */
typedef struct {
    uint32_t number;
    size_t offset;
    size_t code_length;
    uint8_t code[ISCC_CODE_AREA];
} loans_verdict;

/*
 * Says whether a replica may be promoted: whether the log, replayed from an empty register, runs to
 * its end and gives the codes, borrowers and last number that the replica has. `log` is the log
 * alone, up to the writer's position and from its first record on, which has the number 1.
 *
 * Refusals: 23 where the replica is not a register; then 15 where the work area is below
 * LOANS_REGISTER_AREA bytes; then 24, 25, 20, 21 or 22 where a record stops the replay, as
 * loans_replay; then 36 where the log is torn; then 37 where a code is out in one of the two
 * registers alone, or to another borrower in each, and of such codes the least is told, compared
 * byte by byte; then 27 where only the last numbers differ.
 */
loans_verdict loans_promote(const uint8_t *log, size_t log_len, const uint8_t *replica,
                            size_t replica_len, uint8_t *work, size_t work_len);

#ifdef __cplusplus
}
#endif

#endif
