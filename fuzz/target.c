/*
 * A fuzz target for flash_job_run, flash_job_run_uncached and the job writer,
 * for clang's libFuzzer with AddressSanitizer. It runs each job four times on
 * equal parts:
 *   1. every buffer ends where a closed page begins,
 *   2. every buffer begins where a closed page ends,
 *   3. as in (2), on the uncached part,
 *   4. every buffer is an allocation of exactly its length. At level 1 or 2
 *      main flash and the SRAM have the opposite bytes here.
 * Then its records are written as a job by the job writer, at a closed page as
 * in (1) and as in (2), and what was written is run as in (1).
 *
 * What it sees. The archives aren't instrumented, so AddressSanitizer doesn't
 * see their own loads and stores, only the calls of memset that they make (4).
 * The closed pages stop their loads and stores too, those past an end (1) and
 * those before a start (2, 3). Stores on the other side of a buffer in (1) to
 * (3) are found by comparing the bytes beside it. Then what the headers promise
 * is tested: the result, what a refused job leaves, the bytes of the answers
 * and those behind them, the buffers that are only read; that a run depends on
 * nothing but its buffers; that the uncached part differs in values of reads of
 * main flash and of fetches alone, and in none before ACR is written; that at
 * level 1 and 2 only what the CPU reads of main flash and SRAM, or fetches,
 * shows their bytes; that the SRAM changes by writes there or to 00 throughout;
 * and every byte that the writer leaves.
 *
 * What it doesn't see. A load or store inside a buffer that should not be; one
 * that leaps over the closed pages; anything about the functions' own stack; a
 * wrong answer that keeps all promises above. What answers ought to be is shown
 * by the proofs, the pairs and the host. libFuzzer counts no branches of the
 * archives either, so it is told which kind of call got which answer where.
 */
#define _DEFAULT_SOURCE
#include <stdbool.h>
#include <stdio.h>
#include <stdlib.h>
#include <string.h>
#include <sys/mman.h>

#include "flash_job.h"
#include "input.h"
#include "job_writer.h"

enum buffer {
    MAIN, OTP, OPTIONS, SRAM, TIMINGS, SCRAP, JOB, ANSWERS, BUFFERS
};

/* A part with its job: the eight buffers as lent. */
struct part {
    uint8_t *bytes[BUFFERS];
    size_t length[BUFFERS];
};

enum {
    PAGE = 4096,
    MAIN_CAPACITY = 0x101000,   /* 12 sectors, and a page more */
    CAPACITY = 0x10000,         /* more than 2,000 records */
    BESIDE = 64,                /* bytes beside a buffer that are compared */
    UNTOUCHED = 0xA5
};

#define PROMISE(holds)                                                \
    do {                                                              \
        if (!(holds)) {                                               \
            fprintf(stderr, "line %d: not kept: %s\n", __LINE__, #holds); \
            abort();                                                  \
        }                                                             \
    } while (0)

/* Memory -------------------------------------------------------------- */

static size_t capacity(unsigned which)
{
    return which == MAIN || which == SCRAP ? MAIN_CAPACITY : CAPACITY;
}

/* Memory between two closed pages. */
static uint8_t *fenced(size_t size)
{
    uint8_t *pages = mmap(NULL, PAGE + size + PAGE, PROT_NONE,
                          MAP_PRIVATE | MAP_ANONYMOUS, -1, 0);

    if (pages == MAP_FAILED
        || mprotect(pages + PAGE, size, PROT_READ | PROT_WRITE) != 0) {
        perror("memory for the buffers");
        exit(1);
    }
    return pages + PAGE;
}

static uint8_t *ends_at_fence[BUFFERS], *starts_at_fence[BUFFERS];
static uint8_t *written_before_fence, *written_after_fence;

static void make_fences(void)
{
    unsigned i;

    if (ends_at_fence[0] != NULL)
        return;
    for (i = 0; i < BUFFERS; i++) {
        ends_at_fence[i] = fenced(capacity(i));
        starts_at_fence[i] = fenced(capacity(i));
    }
    written_before_fence = fenced(CAPACITY);
    written_after_fence = fenced(CAPACITY);
}

static void lend_before_fence(struct part *part)
{
    unsigned i;

    for (i = 0; i < BUFFERS; i++) {
        part->bytes[i] = ends_at_fence[i] + capacity(i) - part->length[i];
        memset(part->bytes[i] - BESIDE, UNTOUCHED, BESIDE);
    }
}

static void lend_after_fence(struct part *part)
{
    unsigned i;

    for (i = 0; i < BUFFERS; i++) {
        part->bytes[i] = starts_at_fence[i];
        memset(part->bytes[i] + part->length[i], UNTOUCHED, BESIDE);
    }
}

/* An allocation is kept for the next input if its length is the same. */
static void lend_allocated(struct part *part)
{
    static struct part kept;
    unsigned i;

    for (i = 0; i < BUFFERS; i++) {
        if (kept.bytes[i] == NULL || kept.length[i] != part->length[i]) {
            free(kept.bytes[i]);
            kept.bytes[i] = malloc(part->length[i]);
            kept.length[i] = part->length[i];
            PROMISE(kept.bytes[i] != NULL);
        }
        part->bytes[i] = kept.bytes[i];
    }
}

static bool untouched(const uint8_t *beside)
{
    unsigned i;

    for (i = 0; i < BESIDE; i++)
        if (beside[i] != UNTOUCHED)
            return false;
    return true;
}

static void copy(struct part *to, const struct part *from)
{
    unsigned i;

    for (i = 0; i < BUFFERS; i++)
        memcpy(to->bytes[i], from->bytes[i], from->length[i]);
}

static bool same(const struct part *a, const struct part *b, enum buffer which)
{
    return memcmp(a->bytes[which], b->bytes[which], a->length[which]) == 0;
}

/* The part that a setting describes ----------------------------------- */

static const size_t main_lengths[13] = {
    0,      16384,  32768,  49152,  65536,  131072, 262144,
    393216, 524288, 655360, 786432, 917504, 1048576,
};

static uint32_t number(const uint8_t *bytes, unsigned width)
{
    uint32_t value = 0;

    while (width-- > 0)
        value = value << 8 | bytes[width];
    return value;
}

static void put_number(uint8_t *bytes, uint32_t value)
{
    unsigned i;

    for (i = 0; i < 4; i++)
        bytes[i] = (uint8_t)(value >> 8 * i);
}

static uint32_t count_of(const uint8_t *job, size_t length)
{
    return length < HEAD ? 0 : number(job + 5, 2);
}

static size_t changed(size_t length, uint8_t by)
{
    size_t more = by < 128 ? by : 0, less = by < 128 ? 0 : 256u - by;

    return length + more < less ? 0 : length + more - less;
}

static void set_lengths(struct part *part, const uint8_t *setting,
                        const uint8_t *job, size_t job_length)
{
    /* Small parts mostly: they are quick to fill and to compare. */
    static const uint8_t sectors[16] = {4, 1, 1, 1, 2, 2, 3, 3,
                                        4, 4, 5, 1, 2, 3, 6, 12};
    /* Beside what targets have: programs, option cells, sectors, main. */
    static const size_t scraps[16] = {
        65536, 0, 1, 3, 4, 7, 8, 15, 16, 17, 16383, 16384, 65535, 131071,
        131072, 1048576,
    };
    size_t wanted = 16 * (size_t)count_of(job, job_length);
    unsigned wrong = setting[WRONG_BUFFER] % 5;

    part->length[MAIN] = main_lengths[sectors[setting[SECTORS] % 16]];
    part->length[OTP] = 528;
    part->length[OPTIONS] = 16;
    part->length[SRAM] = 4096;
    part->length[TIMINGS] = 96;
    part->length[wrong] = changed(part->length[wrong], setting[WRONG_BY]);
    part->length[SCRAP] = scraps[setting[SCRAP_LENT] % 16];
    part->length[JOB] = job_length;
    /* A count may say more than a job has; 2,000 answers always fit. */
    part->length[ANSWERS] = changed(wanted < 32000 ? wanted : 32000,
                                    setting[ROOM_CHANGED]);
}

static void put_byte(struct part *part, enum buffer which, size_t at,
                     uint8_t byte)
{
    if (at < part->length[which])
        part->bytes[which][at] = byte;
}

static void fill_options(struct part *part, const uint8_t *setting)
{
    memset(part->bytes[OPTIONS], 0xFF, part->length[OPTIONS]);
    put_byte(part, OPTIONS, 0, 0xFF ^ setting[USER_CHANGED]);
    put_byte(part, OPTIONS, 1, 0xAA ^ setting[RDP_CHANGED]);
    put_byte(part, OPTIONS, 8, 0xFF ^ setting[NWRP_CHANGED]);
    put_byte(part, OPTIONS, 9, 0xFF ^ setting[NWRP_CHANGED + 1]);
}

static void fill_timings(struct part *part, const uint8_t *setting)
{
    static const uint32_t timings[8] = {
        1000, 1, 2, 999, 500000, 60000000, 60000001, 0,
    };
    unsigned place = setting[TIMING_PLACE] % 25, i;
    uint8_t bytes[4];
    size_t at;

    for (at = 0; at < part->length[TIMINGS]; at++) {
        i = (unsigned)(at / 4);
        put_number(bytes, place == 24 || i == place
                              ? timings[setting[TIMING] % 8] : 1000);
        part->bytes[TIMINGS][at] = bytes[at % 4];
    }
}

/* The period is a prime, so that no two sectors are alike. */
static void fill_cells(uint8_t *cells, size_t length, uint8_t blank,
                       uint8_t bits)
{
    size_t period = 251, at;

    for (at = 0; at < period && at < length; at++)
        cells[at] = (uint8_t)(blank ^ (bits & at));
    for (; at < length; at += period)
        memcpy(cells + at, cells, length - at < period ? length - at : period);
}

/* FF throughout, or bytes that leave each remainder by 3. */
static void fill_scrap(struct part *part, const uint8_t *setting)
{
    uint8_t bytes = setting[SCRAP_LENT] / 16;

    fill_cells(part->bytes[SCRAP], part->length[SCRAP], (uint8_t)~bytes,
               bytes == 0 ? 0x00 : 0xFF);
}

static void fill(struct part *part, const uint8_t *setting, const uint8_t *job)
{
    uint32_t locked = number(setting + OTP_LOCKED, 2);
    size_t at;

    fill_cells(part->bytes[MAIN], part->length[MAIN], 0xFF,
               setting[CELLS_CHANGED]);
    fill_cells(part->bytes[OTP], part->length[OTP], 0xFF,
               setting[CELLS_CHANGED]);
    for (at = 0; at < 16; at++)
        put_byte(part, OTP, 512 + at, locked >> at & 1 ? 0x00 : 0xFF);
    fill_options(part, setting);
    fill_cells(part->bytes[SRAM], part->length[SRAM], 0x00,
               setting[SRAM_CHANGED]);
    fill_timings(part, setting);
    fill_scrap(part, setting);
    memcpy(part->bytes[JOB], job, part->length[JOB]);
    memset(part->bytes[ANSWERS], UNTOUCHED, part->length[ANSWERS]);
}

/* What the header promises -------------------------------------------- */

static bool fits(const struct part *part)
{
    unsigned n;

    for (n = 1; n <= 12; n++)
        if (part->length[MAIN] == main_lengths[n])
            return part->length[OTP] == 528 && part->length[OPTIONS] == 16
                && part->length[SRAM] == 4096 && part->length[TIMINGS] == 96;
    return false;
}

static bool timings_in_range(const uint8_t *timings)
{
    uint32_t timing;
    unsigned i;

    for (i = 0; i < 24; i++) {
        timing = number(timings + 4 * i, 4);
        if (timing < 1 || timing > 60000000)
            return false;
    }
    return true;
}

/* A value has no byte from its width on. */
static bool value_fits(const uint8_t *value, unsigned width)
{
    unsigned i;

    for (i = width; i < 8; i++)
        if (value[i] != 0)
            return false;
    return true;
}

static bool sound(const uint8_t *record)
{
    uint8_t kind = record[0], who = record[1], width = record[2];
    bool access = kind == 3 || kind == 4;

    if (kind > 7 || record[3] != 0)
        return false;
    if (kind == 7)
        return who == 0 && width == 4 && value_fits(record + 8, 0);
    if (access
        && (who > 1 || (width != 1 && width != 2 && width != 4 && width != 8)))
        return false;
    if (!access && (who != 0 || width != 0))
        return false;
    if (kind == 0 && number(record + 4, 4) > 2)
        return false;
    if ((kind == 1 || kind == 2) && number(record + 4, 4) != 0)
        return false;
    return value_fits(record + 8, kind == 4 ? width : 0);
}

static uint32_t promised_result(const struct part *part)
{
    const uint8_t *job = part->bytes[JOB];
    size_t length = part->length[JOB], i;
    uint32_t count = count_of(job, length);

    if (!fits(part))
        return 1;
    if (!timings_in_range(part->bytes[TIMINGS]))
        return 2;
    if (length < 5 || memcmp(job, "FJB\1\0", 5) != 0)
        return 3;
    if (count > 2000 || length != HEAD + RECORD * (size_t)count)
        return 4;
    if (part->length[ANSWERS] < 16 * (size_t)count)
        return 6;
    for (i = 0; i < count; i++)
        if (!sound(job + HEAD + RECORD * i))
            return 5;
    return 0;
}

/* The value that goes with a code, for a call of that record. */
static bool value_goes(const uint8_t *record, const uint8_t *answer)
{
    uint8_t kind = record[0];
    uint64_t value = number(answer + 8, 4)
                   | (uint64_t)number(answer + 12, 4) << 32;
    uint64_t limit = 1000 * (uint64_t)number(record + 4, 4);

    if (answer[0] == 0 && (kind == 3 || kind == 7))
        return value_fits(answer + 8, record[2]);
    if (answer[0] == 0 && kind == 6)
        return value <= limit;
    if (answer[0] == 17)
        return kind == 4 && (value == 0x80 || value == 0x40 || value == 0x20
                             || value == 0x10);
    if (answer[0] == 18)
        return kind == 6 && value == limit && limit <= 120000000;
    return value == 0;
}

static void check_answer(const uint8_t *record, const uint8_t *answer)
{
    uint32_t time = number(record + 4, 4);
    bool too_long = (record[0] == 5 && time > 120000000)
                 || (record[0] == 6 && time > 120000);

    PROMISE(answer[0] == 0 || (answer[0] >= 7 && answer[0] <= 18)
            || (answer[0] == 21 && record[0] == 0));
    PROMISE((answer[0] == 8) == too_long);
    PROMISE(record[0] != 7 || answer[0] == 0 || answer[0] == 10
            || answer[0] == 7 || answer[0] == 11 || answer[0] == 13);
    PROMISE(memcmp(answer + 1, "\0\0\0\0\0\0\0", 7) == 0);
    PROMISE(value_goes(record, answer));
}

/* The first byte of an access that is done lies where the others do. */
static bool in_sram(const uint8_t *record)
{
    uint32_t address = number(record + 4, 4);

    return (record[0] == 3 || record[0] == 4) && address >= 0x40024000
        && address < 0x40025000;
}

/* A regression, also one that is cut, leaves 00 throughout; else only writes
   there change it. */
static void check_sram(const struct part *part, const struct part *was)
{
    size_t count = count_of(was->bytes[JOB], was->length[JOB]), i;
    const uint8_t *record;

    for (i = 0; i < count; i++) {
        record = part->bytes[JOB] + HEAD + RECORD * i;
        if (in_sram(record) && record[0] == 4)
            return;
    }
    if (same(part, was, SRAM))
        return;
    PROMISE(was->bytes[OPTIONS][1] != 0xCC);
    for (i = 0; i < part->length[SRAM]; i++)
        PROMISE(part->bytes[SRAM][i] == 0);
}

/* `was` is the part before the run. */
static void check_run(const struct part *part, const struct part *was,
                      uint32_t result)
{
    size_t behind = 16 * (size_t)count_of(was->bytes[JOB], was->length[JOB]);
    size_t i;

    PROMISE(result == promised_result(was));
    PROMISE(same(part, was, TIMINGS) && same(part, was, SCRAP)
            && same(part, was, JOB));
    if (result != 0) {
        PROMISE(same(part, was, MAIN) && same(part, was, OTP));
        PROMISE(same(part, was, OPTIONS) && same(part, was, SRAM));
        PROMISE(same(part, was, ANSWERS));
        return;
    }
    for (i = 0; i < behind; i += 16)
        check_answer(part->bytes[JOB] + HEAD + i, part->bytes[ANSWERS] + i);
    for (i = behind; i < part->length[ANSWERS]; i++)
        PROMISE(part->bytes[ANSWERS][i] == UNTOUCHED);
    for (i = 0; i < part->length[OTP]; i++)
        PROMISE((part->bytes[OTP][i] & ~was->bytes[OTP][i]) == 0);
    PROMISE(was->bytes[OPTIONS][1] != 0xCC || same(part, was, OPTIONS));
    check_sram(part, was);
}

static bool in_main(const uint8_t *record, size_t length)
{
    uint32_t address = number(record + 4, 4);

    return address >= 0x08000000 && address - 0x08000000 < length;
}

/* A done read of main flash, or a done fetch. */
static bool shows_main(const uint8_t *record, const uint8_t *answer,
                       size_t length)
{
    return answer[0] == 0
        && (record[0] == 7 || (record[0] == 3 && in_main(record, length)));
}

/* Only a CPU's read of main flash or SRAM, or a fetch, may show other bytes. */
static void check_secrecy(const struct part *part, const struct part *other)
{
    size_t count = count_of(part->bytes[JOB], part->length[JOB]), i;
    const uint8_t *record, *answer, *other_answer;
    bool reads_secret;

    PROMISE(same(part, other, OTP) && same(part, other, OPTIONS));
    for (i = 0; i < count; i++) {
        record = part->bytes[JOB] + HEAD + RECORD * i;
        answer = part->bytes[ANSWERS] + 16 * i;
        other_answer = other->bytes[ANSWERS] + 16 * i;
        reads_secret = record[1] == 0
                    && (shows_main(record, answer, part->length[MAIN])
                        || (record[0] == 3 && answer[0] == 0
                            && in_sram(record)));
        PROMISE(memcmp(answer, other_answer, reads_secret ? 8 : 16) == 0);
    }
    /* Level 0 was reached through a regression. */
    PROMISE(part->bytes[OPTIONS][1] != 0xAA
            || (same(part, other, MAIN) && same(part, other, SRAM)));
}

/* A byte, half-word or word at one of ACR's four bytes. */
static bool writes_acr(const uint8_t *record)
{
    return record[0] == 4 && number(record + 4, 4) - 0x40023C00 < 4;
}

/* Lines change values of done reads of main flash and of done fetches alone,
   and no lines are used before ACR is written. */
static void check_uncached(const struct part *part, const struct part *uncached)
{
    size_t count = count_of(part->bytes[JOB], part->length[JOB]), i;
    const uint8_t *record, *answer, *other;
    bool on = false;

    PROMISE(same(part, uncached, MAIN) && same(part, uncached, OTP)
            && same(part, uncached, OPTIONS) && same(part, uncached, SRAM));
    for (i = 0; i < count; i++) {
        record = part->bytes[JOB] + HEAD + RECORD * i;
        answer = part->bytes[ANSWERS] + 16 * i;
        other = uncached->bytes[ANSWERS] + 16 * i;
        on = on || writes_acr(record);
        PROMISE(memcmp(answer, other,
                       on && shows_main(record, answer, part->length[MAIN])
                           ? 8 : 16) == 0);
    }
}

/* Runs ---------------------------------------------------------------- */

typedef uint32_t job_run(uint8_t *, size_t, uint8_t *, size_t,
                         uint8_t *, size_t, uint8_t *, size_t,
                         const uint8_t *, size_t, const uint8_t *, size_t,
                         const uint8_t *, size_t, uint8_t *, size_t);

static uint32_t run_by(job_run *run, struct part *part)
{
    return run(part->bytes[MAIN], part->length[MAIN],
               part->bytes[OTP], part->length[OTP],
               part->bytes[OPTIONS], part->length[OPTIONS],
               part->bytes[SRAM], part->length[SRAM],
               part->bytes[TIMINGS], part->length[TIMINGS],
               part->bytes[SCRAP], part->length[SCRAP],
               part->bytes[JOB], part->length[JOB],
               part->bytes[ANSWERS], part->length[ANSWERS]);
}

static uint32_t run(struct part *part)
{
    return run_by(flash_job_run, part);
}

enum { PARTS = 9, KINDS = 8, CODES = 22, PLACES = 12 };

/* For libFuzzer: on which part which kind of call got which answer where. */
__attribute__((section("__libfuzzer_extra_counters")))
static uint8_t seen[PARTS][KINDS][CODES][PLACES];

/* By the sizes of its sectors and by its level. */
static unsigned part_class(const struct part *was)
{
    size_t length = was->length[MAIN];
    uint8_t rdp = was->bytes[OPTIONS][1];
    unsigned size = length < 131072 ? 0 : length < 262144 ? 1 : 2;
    unsigned level = rdp == 0xAA ? 0 : rdp == 0xCC ? 2 : 1;

    return 3 * size + level;
}

static unsigned place(const uint8_t *record)
{
    uint32_t address = number(record + 4, 4);

    if (record[0] != 3 && record[0] != 4 && record[0] != 7)
        return 0;
    if (address >= 0x40023C00 && address < 0x40023C18)
        return (address - 0x40023C00) / 4;
    if (in_sram(record))
        return 11;
    if (address >= 0x1FFFC000)
        return 6;
    if (address >= 0x1FFF7A00)
        return 7;
    if (address >= 0x1FFF7800)
        return 8;
    return address >= 0x1FFF0000 ? 9 : 10;
}

static void show_answers(const struct part *part, unsigned class)
{
    size_t count = count_of(part->bytes[JOB], part->length[JOB]), i;
    const uint8_t *record, *answer, *told;
    uint8_t *counter;
    unsigned code;

    for (i = 0; i < count; i++) {
        record = part->bytes[JOB] + HEAD + RECORD * i;
        answer = part->bytes[ANSWERS] + 16 * i;
        code = answer[0];
        if (code == 17)     /* one number for each flag, of no other answer */
            code = answer[8] & 0x80 ? 1 : answer[8] & 0x40 ? 2
                 : answer[8] & 0x20 ? 3 : 4;
        /* A reset is told by the call before it, which it may cut. */
        told = record[0] == 0 && i > 0 ? record - RECORD : record;
        counter = &seen[class][record[0]][code][place(told)];
        if (*counter < 255)
            ++*counter;
    }
}

static void check_beside(const struct part *first, const struct part *second)
{
    unsigned i;

    for (i = 0; i < BUFFERS; i++) {
        PROMISE(untouched(first->bytes[i] - BESIDE));
        PROMISE(untouched(second->bytes[i] + second->length[i]));
    }
}

/* On the part `third`, which is lent like `second`. */
static void run_uncached(const struct part *first, struct part *second,
                         const struct part *third, uint32_t result)
{
    copy(second, third);
    PROMISE(run_by(flash_job_run_uncached, second) == result);
    check_run(second, third, result);
    check_beside(first, second);
    if (result == 0)
        check_uncached(first, second);
}

static void run_all(struct part *first, struct part *second,
                    struct part *third, const uint8_t *setting)
{
    bool secret = third->length[OPTIONS] > 1
               && third->bytes[OPTIONS][1] != 0xAA;
    uint32_t result = run(first);
    size_t i;

    check_run(first, third, result);
    if (result == 0)
        show_answers(first, part_class(third));
    PROMISE(run(second) == result);
    for (i = 0; i < BUFFERS; i++)
        PROMISE(same(first, second, (enum buffer)i));
    check_beside(first, second);
    run_uncached(first, second, third, result);
    if (secret) {
        fill_cells(third->bytes[MAIN], third->length[MAIN], 0x00,
                   setting[CELLS_CHANGED]);
        fill_cells(third->bytes[SRAM], third->length[SRAM], 0xFF,
                   setting[SRAM_CHANGED]);
    }
    PROMISE(run(third) == result);
    if (result == 0 && secret)
        check_secrecy(first, third);
    else if (!secret)
        PROMISE(same(first, third, MAIN) && same(first, third, SRAM)
                && same(first, third, ANSWERS));
}

/* The job writer ------------------------------------------------------- */

/* Where a record has no 0, a field gets bits that no record has room for. */
static uint32_t append(uint8_t *buffer, size_t length, uint32_t count,
                       const uint8_t *record)
{
    uint32_t above = (uint32_t)record[3] << 8;
    unsigned field = record[3] % 3;

    return flash_job_append(buffer, length, count,
                            record[0] | (field == 0 ? above : 0),
                            record[1] | (field == 1 ? above : 0),
                            record[2] | (field == 2 ? above : 0),
                            number(record + 4, 4),
                            number(record + 8, 4)
                                | (uint64_t)number(record + 12, 4) << 32);
}

/* Begins a job and appends the sound records of another: how many they are. */
static uint32_t write_calls(uint8_t *buffer, size_t length, const uint8_t *job,
                            size_t job_length)
{
    static uint8_t promised[CAPACITY];
    uint32_t count = 0, result;
    size_t at;

    memset(buffer, UNTOUCHED, length);
    memset(promised, UNTOUCHED, length);
    result = length < HEAD ? 20 : 0;
    PROMISE(flash_job_begin(buffer, length) == result);
    if (result == 0)
        memcpy(promised, "FJB\1\0\0\0", HEAD);
    for (at = HEAD; at + RECORD <= job_length; at += RECORD) {
        result = !sound(job + at) ? 5
               : count >= 2000 || length < HEAD + RECORD * (count + 1) ? 20 : 0;
        PROMISE(append(buffer, length, count, job + at) == result);
        if (result == 0)
            memcpy(promised + HEAD + RECORD * count++, job + at, RECORD);
    }
    PROMISE(memcmp(buffer, promised, length) == 0);
    return count;
}

static void close_job(uint8_t *buffer, size_t length, uint32_t count)
{
    static uint8_t promised[CAPACITY];

    memcpy(promised, buffer, length);
    PROMISE(flash_job_close(buffer, length, 2001) == 20);
    PROMISE(flash_job_close(buffer, length, count) == (length < HEAD ? 20 : 0));
    if (length >= HEAD) {
        promised[5] = (uint8_t)count;
        promised[6] = (uint8_t)(count >> 8);
    }
    PROMISE(memcmp(buffer, promised, length) == 0);
}

/* The first bytes of the writer's buffer, run as a job. */
static uint32_t run_written(const uint8_t *setting, const uint8_t *job,
                            size_t job_length)
{
    struct part part, was;
    uint32_t result;

    set_lengths(&part, setting, job, job_length);
    was = part;
    lend_before_fence(&part);
    lend_allocated(&was);
    fill(&was, setting, job);
    copy(&part, &was);
    result = run(&part);
    check_run(&part, &was, result);
    return result;
}

static void write_and_run(const uint8_t *setting, const uint8_t *job,
                          size_t job_length)
{
    size_t length = changed(job_length, setting[BUFFER_CHANGED]);
    uint8_t *before = written_before_fence + CAPACITY - length;
    uint8_t *after = written_after_fence;
    uint32_t count;

    memset(before - BESIDE, UNTOUCHED, BESIDE);
    memset(after + length, UNTOUCHED, BESIDE);
    count = write_calls(before, length, job, job_length);
    PROMISE(write_calls(after, length, job, job_length) == count);
    if (count > 0)
        PROMISE(run_written(setting, before, HEAD + RECORD * (size_t)count)
                != 0);
    close_job(before, length, count);
    close_job(after, length, count);
    PROMISE(untouched(before - BESIDE) && untouched(after + length));
    if (length >= HEAD)
        run_written(setting, before, HEAD + RECORD * (size_t)count);
}

int LLVMFuzzerTestOneInput(const uint8_t *data, size_t size);

int LLVMFuzzerTestOneInput(const uint8_t *data, size_t size)
{
    struct part first, second, third;

    /* The writer's buffer may have 127 bytes more than the job. */
    if (size < SETTING || size - SETTING > CAPACITY - BESIDE - 127)
        return 0;
    make_fences();
    set_lengths(&first, data, data + SETTING, size - SETTING);
    second = third = first;
    lend_before_fence(&first);
    lend_after_fence(&second);
    lend_allocated(&third);
    fill(&third, data, data + SETTING);
    copy(&first, &third);
    copy(&second, &third);
    run_all(&first, &second, &third, data);
    write_and_run(data, data + SETTING, size - SETTING);
    return 0;
}
