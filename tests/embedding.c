/* Hands every file of traces/ to the proved library, as a host in C would: usage: embedding TRACES
 * TRACES/answers.txt says which answer each file gets. What is lent ends where memory ends, so that a byte read or written past
 * it kills this program; files are lent where nothing can be written. */
#define _DEFAULT_SOURCE
#include "lorvisk.h"

#include <pthread.h>
#include <stdio.h>
#include <stdlib.h>
#include <string.h>
#include <sys/mman.h>
#include <unistd.h>

/* The most that the loads of a list can fill: 1,024 of 16 bytes. */
#define LOADS_LENGTH 16384

/* The stack that the header says is enough for a call, here for the whole program. */
#define STACK_LENGTH (64 * 1024)

/* The file that is being checked. */
static char name[256];

static void fail(const char *what) {
    fprintf(stderr, "embedding: %s: %s\n", name, what);
    exit(1);
}

static void expect(bool found, const char *what) {
    if (!found) fail(what);
}

static bool same_word(lorvisk_word one, lorvisk_word other) { return one.bits == other.bits; }

static bool is_no_verdict(lorvisk_word word) { return word.bits == 0; }

/* ---- Lent memory. */

struct lent {
    uint8_t *bytes;
    size_t length;
    uint8_t *pages;
    size_t pages_length;
};

/* Bytes that end where the next page cannot be touched, the bytes before them in their first page included. */
static struct lent lend(size_t length) {
    size_t page = (size_t)sysconf(_SC_PAGESIZE);
    size_t pages_length = (length + page - 1) / page * page;
    uint8_t *pages = mmap(NULL, pages_length + page, PROT_READ | PROT_WRITE, MAP_PRIVATE | MAP_ANONYMOUS, -1, 0);
    expect(pages != MAP_FAILED, "no memory to lend");
    expect(mprotect(pages + pages_length, page, PROT_NONE) == 0, "the page past the lent bytes can be touched");
    memset(pages, 0xa5, pages_length);
    return (struct lent){pages + pages_length - length, length, pages, pages_length};
}

static void take_back(struct lent lent) {
    munmap(lent.pages, lent.pages_length + (size_t)sysconf(_SC_PAGESIZE));
}

/* Different bytes at neighbouring places, and others for each memory. */
static void fill(struct lent lent, unsigned seed) {
    for (size_t i = 0; i < lent.length; i++) lent.bytes[i] = (uint8_t)(seed + 7 * i + i / 256);
}

/* Whether all bytes from an index on are as they were filled. */
static bool is_filled_from(struct lent lent, unsigned seed, size_t start) {
    for (size_t i = start; i < lent.length; i++)
        if (lent.bytes[i] != (uint8_t)(seed + 7 * i + i / 256)) return false;
    return true;
}

static bool is_filled(struct lent lent, unsigned seed) { return is_filled_from(lent, seed, 0); }

/* Whether the bytes before the lent ones are as they were. */
static bool is_whole_before(struct lent lent) {
    for (uint8_t *byte = lent.pages; byte < lent.bytes; byte++)
        if (*byte != 0xa5) return false;
    return true;
}

static struct lent file_named(const char *path) {
    FILE *stream = fopen(path, "rb");
    if (stream == NULL || fseek(stream, 0, SEEK_END) != 0) fail("cannot be opened");
    struct lent file = lend((size_t)ftell(stream));
    rewind(stream);
    expect(fread(file.bytes, 1, file.length, stream) == file.length, "cannot be read");
    fclose(stream);
    if (file.pages_length > 0) expect(mprotect(file.pages, file.pages_length, PROT_READ) == 0, "can be written");
    return file;
}

/* ---- Sheets. */

static void check_written(lorvisk_word word) {
    struct lent sheet = lend(LORVISK_SHEET_LENGTH);
    expect(lorvisk_write_sheet(word, sheet.bytes, sheet.length), "its sheet is not written");
    expect(same_word(lorvisk_read_sheet(sheet.bytes, sheet.length), word), "its sheet reads otherwise");
    for (size_t kept = LORVISK_SHEET_LENGTH; kept-- > 0;) {
        sheet.bytes[kept] = 0;
        lorvisk_word read = lorvisk_read_sheet(sheet.bytes, sheet.length);
        expect(kept < 11 ? is_no_verdict(read) : same_word(read, word), "its sheet, cut short, reads as another answer");
    }
    expect(is_whole_before(sheet), "the sheet is written before its place");
    take_back(sheet);
}

static void check_not_written(lorvisk_word word, size_t length) {
    struct lent sheet = lend(length);
    fill(sheet, 1);
    expect(!lorvisk_write_sheet(word, sheet.bytes, sheet.length), "a sheet is written that should not be");
    expect(is_filled(sheet, 1) && is_whole_before(sheet), "a sheet that is not written changes bytes");
    take_back(sheet);
}

/* Words that no function gives: no verdict, a code past the table, numbers out of their bounds or not the code's. */
static void check_other_words(void) {
    const uint64_t others[] = {0, 12, 256 + 1, 1025 << 16 | 1, UINT64_C(2) << 48 | 1 << 16 | 1, 1 << 16 | 2,
                               UINT64_C(1) << 32 | 1 << 16 | 10, UINT64_MAX};
    strcpy(name, "a word that is no verdict");
    for (size_t i = 0; i < sizeof others / sizeof *others; i++)
        check_not_written((lorvisk_word){others[i]}, LORVISK_SHEET_LENGTH);
}

/* ---- Runs. */

struct memories {
    struct lent global, shared, loads;
};

static struct memories lend_memories(size_t global, size_t shared, size_t loads) {
    struct memories lent = {lend(global), lend(shared), lend(loads)};
    fill(lent.global, 1);
    fill(lent.shared, 2);
    fill(lent.loads, 3);
    return lent;
}

static lorvisk_word run(struct lent file, struct memories lent) {
    return lorvisk_run_file(file.bytes, file.length, lent.global.bytes, lent.global.length, lent.shared.bytes,
                            lent.shared.length, lent.loads.bytes, lent.loads.length);
}

/* A refusal changes nothing, and no run changes what was not lent. */
static void check_left(struct memories lent, lorvisk_word word) {
    bool same = is_filled(lent.global, 1) && is_filled(lent.shared, 2) && is_filled(lent.loads, 3);
    expect(same || lorvisk_is_accepted(word), "a refused run changes what was lent");
    bool whole = is_whole_before(lent.global) && is_whole_before(lent.shared) && is_whole_before(lent.loads);
    expect(whole, "a run writes before what was lent");
    take_back(lent.global);
    take_back(lent.shared);
    take_back(lent.loads);
}

static size_t length_at(struct lent file, size_t at) {
    return file.bytes[at] | file.bytes[at + 1] << 8 | file.bytes[at + 2] << 16 | (size_t)file.bytes[at + 3] << 24;
}

/* How many bytes the loads of an accepted file read: kind 1, whose body has its size in the second byte. */
static size_t load_bytes(struct lent file) {
    size_t events = file.bytes[0] | file.bytes[1] << 8, body = 12 + 4 * events, total = 0;
    for (size_t i = 0; i < events; i++) {
        const uint8_t *entry = file.bytes + 12 + 4 * i;
        if (entry[0] == 1) total += file.bytes[body + 1];
        body += entry[2] | entry[3] << 8;
    }
    return total;
}

static void check_runs(struct lent file, lorvisk_word judged) {
    size_t global = file.length < 12 ? 0 : length_at(file, 4), shared = file.length < 12 ? 0 : length_at(file, 8);
    if (global > 65536 || shared > 65536) global = shared = 16;

    struct memories lent = lend_memories(global, shared, LOADS_LENGTH);
    lorvisk_word word = run(file, lent);
    expect(same_word(word, judged), "a run over memories of its lengths answers otherwise");
    size_t filled = lorvisk_is_accepted(word) ? load_bytes(file) : 0;
    expect(is_filled_from(lent.loads, 3, filled), "a run changes the load record past its loads");
    check_left(lent, word);

    lent = lend_memories(global, shared, 0);
    word = run(file, lent);
    bool no_room = lorvisk_code(word) == LORVISK_NO_ROOM && lorvisk_event(word) == lorvisk_event(judged);
    expect(same_word(word, judged) || (lorvisk_is_accepted(judged) && no_room), "a run without a load record answers otherwise");
    check_left(lent, word);

    lent = lend_memories(global + 1, shared, LOADS_LENGTH);
    word = run(file, lent);
    bool earlier = lorvisk_code(judged) == LORVISK_WRONG_SHAPE || lorvisk_code(judged) == LORVISK_TOO_MANY_EVENTS;
    unsigned expected = earlier ? lorvisk_code(judged) : LORVISK_WRONG_MEMORY_LENGTH;
    expect(lorvisk_code(word) == expected, "a run over a longer memory answers otherwise");
    check_left(lent, word);
}

/* Document 01's file, with its bytes: the copy puts four global bytes into shared memory, and the load reads them. */
static void check_k01(struct lent file) {
    struct memories lent = lend_memories(16, 16, 6);
    expect(lorvisk_is_accepted(run(file, lent)), "K1 is refused");
    expect(is_filled(lent.global, 1), "K1 changes global memory");
    expect(memcmp(lent.shared.bytes, lent.global.bytes, 4) == 0, "K1's copy has not landed");
    expect(memcmp(lent.loads.bytes, lent.global.bytes, 4) == 0, "K1's load reads other bytes");
    uint8_t past[] = {(uint8_t)(3 + 7 * 4), (uint8_t)(3 + 7 * 5)};
    expect(memcmp(lent.loads.bytes + 4, past, 2) == 0, "K1 changes the load record past its load");
}

/* ---- All files. */

static void check_file(const char *folder, const unsigned numbers[4]) {
    char path[4096];
    snprintf(path, sizeof path, "%s/%s", folder, name);
    struct lent file = file_named(path);
    lorvisk_word word = lorvisk_judge_file(file.bytes, file.length);
    bool same = lorvisk_code(word) == numbers[0] && lorvisk_event(word) == numbers[1] &&
                lorvisk_partner(word) == numbers[2] && lorvisk_peak(word) == numbers[3];
    expect(same, "gets another answer than answers.txt says");
    expect(lorvisk_is_accepted(word) == (numbers[0] == 1), "is accepted, or not, otherwise than answers.txt says");
    check_written(word);
    check_not_written(word, LORVISK_SHEET_LENGTH - 1);
    expect(((unsigned)word.bits & 0xffff) == numbers[0], "its code is lost where 32 bits are kept");
    check_runs(file, word);
    if (strcmp(name, "k01_copy_wait_all_load.trace") == 0) check_k01(file);
    take_back(file);
}

static void *check_all(void *folder) {
    char path[4096];
    snprintf(path, sizeof path, "%s/answers.txt", (const char *)folder);
    FILE *answers = fopen(path, "r");
    strcpy(name, "answers.txt");
    if (answers == NULL) fail("cannot be opened");
    unsigned files = 0, numbers[4];
    while (fscanf(answers, "%255s %u %u %u %u", name, &numbers[0], &numbers[1], &numbers[2], &numbers[3]) == 5) {
        check_file(folder, numbers);
        files++;
    }
    expect(feof(answers) && files > 500, "answers.txt is not read to its end, or is too short");
    fclose(answers);
    check_other_words();
    printf("embedding: %u files judged, run and signed through the C boundary\n", files);
    return NULL;
}

int main(int count, char **arguments) {
    if (count != 2) {
        fprintf(stderr, "usage: embedding TRACES\n");
        return 2;
    }
    pthread_t thread;
    pthread_attr_t attributes;
    if (pthread_attr_init(&attributes) != 0 || pthread_attr_setstacksize(&attributes, STACK_LENGTH) != 0 ||
        pthread_create(&thread, &attributes, check_all, arguments[1]) != 0 || pthread_join(thread, NULL) != 0) {
        fprintf(stderr, "embedding: no thread with a stack of %d bytes\n", STACK_LENGTH);
        return 2;
    }
    return 0;
}
