/* Lorvisk, a proved judge of GPU traces, for C and C++: judge a trace file, run it over two memories, write and read verdict
 * sheets. The functions stand in liblorvisk.a (x86-64), which `rt lib --cpu x86-64` in crates/lorvisk writes; they need memcpy
 * and memset and nothing else, keep nothing between calls, allocate nothing, and may be called by several threads at once. A
 * call uses less than 64 KiB of stack.
 *
 * What each promises is proved of its code (crates/lorvisk/src/lib.rt) for bytes of every value and for every length.
 *
 * What the caller owes, and no proof can check: each pointer is valid for the length beside it while the call lasts, to be
 * read, and where it is not const to be written too. It is not null, even where the length is 0; a length is below 2^63. What
 * may be written overlaps nothing else that is handed over, and no other thread touches it during the call, nor writes what
 * is handed over to be read. */
#ifndef LORVISK_H
#define LORVISK_H

#include <stdbool.h>
#include <stddef.h>
#include <stdint.h>

#ifdef __cplusplus
extern "C" {
#endif

#if defined(__GNUC__)
#define LORVISK_LOOK_AT __attribute__((warn_unused_result))
#else
#define LORVISK_LOOK_AT
#endif

/* An answer crosses as its word, a number of 64 bits: code, event, partner and peak, sixteen bits each, the code lowest. 0 is
 * no verdict. It is a struct here, so that no compiler takes it for a truth value or a code, or cuts it to an int; it is handed
 * over as the number is (x86-64, System V). A binding that has it as a number, or as less of it, finds the code in its lowest
 * sixteen bits. */
typedef struct {
    uint64_t bits;
} lorvisk_word;

/* The codes of an answer, and the numbers that go with each; a number that is not named is 0. */
enum {
    LORVISK_NO_VERDICT = 0,
    LORVISK_ACCEPTED = 1,            /* event: how many events the list has; peak: the most operations open at once */
    LORVISK_WRONG_SHAPE = 2,         /* the file is no trace file */
    LORVISK_TOO_MANY_EVENTS = 3,     /* more than 1,024 */
    LORVISK_WRONG_MEMORY_LENGTH = 4, /* over 65,536 bytes or, in a run, not the lent memory's */
    LORVISK_UNKNOWN_KIND = 5,        /* event */
    LORVISK_WRONG_BODY_LENGTH = 6,   /* event */
    LORVISK_FIELD_NOT_ALLOWED = 7,   /* event */
    LORVISK_MISALIGNED = 8,          /* event */
    LORVISK_OUT_OF_RANGE = 9,        /* event */
    LORVISK_CLASH = 10,              /* event, and partner: the earlier event that it clashes with */
    LORVISK_NO_ROOM = 11             /* in a run, the loads do not fit the load record; event: how many events the list has */
};

/* The length of a verdict sheet. */
#define LORVISK_SHEET_LENGTH 12

/* The numbers of a word that one of the functions below gave. */
static inline unsigned lorvisk_code(lorvisk_word word) { return (unsigned)(word.bits & 0xffff); }
static inline unsigned lorvisk_event(lorvisk_word word) { return (unsigned)(word.bits >> 16 & 0xffff); }
static inline unsigned lorvisk_partner(lorvisk_word word) { return (unsigned)(word.bits >> 32 & 0xffff); }
static inline unsigned lorvisk_peak(lorvisk_word word) { return (unsigned)(word.bits >> 48); }

/* Whether the file may pass: this, and nothing else, is approval. */
static inline bool lorvisk_is_accepted(lorvisk_word word) { return lorvisk_code(word) == LORVISK_ACCEPTED; }

/* The answer of a trace file, code 1 to 10: never 0. */
LORVISK_LOOK_AT lorvisk_word lorvisk_judge_file(const uint8_t *file, size_t file_length);

/* Runs a trace file over two memories and a load record; code 1 to 11, never 0. With code 1 both memories hold what every
 * permitted order of the file's events leaves, and the load record begins with the bytes of each load, in file order; its
 * bytes past them stay. With any other code nothing is changed. */
LORVISK_LOOK_AT lorvisk_word lorvisk_run_file(const uint8_t *file, size_t file_length, uint8_t *global,
                                              size_t global_length, uint8_t *shared, size_t shared_length,
                                              uint8_t *loads, size_t loads_length);

/* Writes the verdict sheet of a word to the first 12 bytes of out, and says whether it has: the bytes past them stay. True says
 * that it is written, not that the file is accepted: a refusal has a sheet too. False, and nothing is changed, so that an older
 * sheet still stands there, where fewer than 12 bytes are lent or the word is no verdict: 0, or any other that none of these
 * functions gives. */
LORVISK_LOOK_AT bool lorvisk_write_sheet(lorvisk_word word, uint8_t *out, size_t out_length);

/* The word of the answer on a verdict sheet, code 1 to 11; 0 where the bytes are not exactly one sheet. */
LORVISK_LOOK_AT lorvisk_word lorvisk_read_sheet(const uint8_t *sheet, size_t sheet_length);

#ifdef __cplusplus
}
#endif

#endif
