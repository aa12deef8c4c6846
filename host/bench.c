#include "bench.h"

#include <assert.h>
#include <stdarg.h>
#include <stdio.h>
#include <string.h>

#include "flash_job.h"

enum {
    /* Odd, so that no buffer is aligned by luck. */
    GUARD = 61,
    /* More than a part with 12 sectors. */
    MAIN_CAPACITY = 0x140000,
    SMALL_CAPACITY = 1024,
    SRAM_CAPACITY = 8192,
    /* Enough for a job of 65,535 calls and for its answers. */
    JOB_CAPACITY = 0x100010,
    /* What an answer buffer holds before the run. */
    UNTOUCHED = 0xA5
};

#define STORE(name, capacity)                            \
    static uint8_t name##_store[GUARD + (capacity) + GUARD]; \
    static uint8_t name##_expected[capacity];                \
    static uint8_t name##_before[capacity]

STORE(main, MAIN_CAPACITY);
STORE(otp, SMALL_CAPACITY);
STORE(options, SMALL_CAPACITY);
STORE(sram, SRAM_CAPACITY);
STORE(timings, SMALL_CAPACITY);
STORE(scrap, MAIN_CAPACITY);
STORE(job, JOB_CAPACITY);
STORE(answers, JOB_CAPACITY);

#define LENT(title, name, capacity) \
    {title, name##_store + GUARD, name##_expected, name##_before, capacity, 0, \
     false}

struct lent lent[BUFFERS] = {
    LENT("main flash", main, MAIN_CAPACITY),
    LENT("OTP", otp, SMALL_CAPACITY),
    LENT("option cells", options, SMALL_CAPACITY),
    LENT("SRAM", sram, SRAM_CAPACITY),
    LENT("timings", timings, SMALL_CAPACITY),
    LENT("scrap", scrap, MAIN_CAPACITY),
    LENT("job", job, JOB_CAPACITY),
    LENT("answers", answers, JOB_CAPACITY),
};

enum part { CACHED, UNCACHED, PARTS };

/* The answers of an accepted job, by the part that it runs on. */
static uint8_t granted[PARTS][JOB_CAPACITY];
static size_t granted_length;

static unsigned cases, differing;
static char case_name[120];
static const char *case_part;           /* where a case runs on two */
static bool case_differs;
static bool names_shown;

void show_names(void)
{
    names_shown = true;
}

/* Filling the buffers ------------------------------------------------- */

void lend(enum buffer which, size_t length)
{
    assert(length <= lent[which].capacity);
    lent[which].length = length;
    lent[which].null = false;
}

void lend_null(enum buffer which)
{
    lent[which].length = 0;
    lent[which].null = true;
}

void expect(enum buffer which, size_t offset, size_t count, uint8_t byte)
{
    memset(lent[which].expected + offset, byte, count);
}

void put(enum buffer which, size_t offset, size_t count, uint8_t byte)
{
    memset(lent[which].bytes + offset, byte, count);
    expect(which, offset, count, byte);
}

void put_bytes(enum buffer which, size_t offset, const uint8_t *bytes,
               size_t count)
{
    memcpy(lent[which].bytes + offset, bytes, count);
    expect_bytes(which, offset, bytes, count);
}

void expect_bytes(enum buffer which, size_t offset, const uint8_t *bytes,
                  size_t count)
{
    memcpy(lent[which].expected + offset, bytes, count);
}

static void grant(enum part part, size_t index, uint8_t code, uint64_t value)
{
    uint8_t *record = granted[part] + FLASH_ANSWER_LENGTH * index;
    unsigned i;

    memset(record, 0, FLASH_ANSWER_LENGTH);
    record[FLASH_ANSWER_CODE_AT] = code;
    for (i = 0; i < 8; i++)
        record[FLASH_ANSWER_VALUE_AT + i] = (uint8_t)(value >> (8 * i));
}

void expect_answer(size_t index, uint8_t code, uint64_t value)
{
    grant(CACHED, index, code, value);
    grant(UNCACHED, index, code, value);
    granted_length = FLASH_ANSWER_LENGTH * (index + 1);
}

void expect_uncached(size_t index, uint64_t value)
{
    grant(UNCACHED, index, FLASH_CODE_DONE, value);
}

void expect_no_answers(void)
{
    granted_length = 0;
}

/* The part ------------------------------------------------------------ */

/* Numbers of its own, since FLASH_MAIN_LENGTH is to be tried. */
size_t main_length(unsigned n)
{
    static const size_t lengths[13] = {
        0,      16384,  32768,  49152,  65536,  131072, 262144,
        393216, 524288, 655360, 786432, 917504, 1048576,
    };
    return lengths[n];
}

uint8_t pattern(size_t offset)
{
    /* A prime, so that no two sectors look alike; and no byte is FF. */
    return (uint8_t)(offset % 251);
}

uint8_t sram_pattern(size_t offset)
{
    /* Another prime; and no byte is 00, so that zeros show. */
    return (uint8_t)(1 + offset % 241);
}

static uint8_t scrap_pattern(size_t offset)
{
    /* A third prime, so that scrap and main flash differ; and no byte is FF. */
    return (uint8_t)(254 - offset % 239);
}

void put_timing(unsigned row, unsigned column, uint32_t microseconds)
{
    size_t offset = FLASH_TIMING_AT(row, column);
    unsigned i;

    for (i = 0; i < 4; i++)
        put(TIMINGS, offset + i, 1, (uint8_t)(microseconds >> (8 * i)));
}

static void lend_patterned(enum buffer which, size_t length,
                           uint8_t (*byte_at)(size_t))
{
    size_t i;

    lend(which, length);
    for (i = 0; i < length; i++)
        lent[which].bytes[i] = byte_at(i);
    expect_bytes(which, 0, lent[which].bytes, length);
}

void lend_part(unsigned n)
{
    unsigned row, column;

    lend_patterned(MAIN_FLASH, main_length(n), pattern);
    lend(OTP, FLASH_OTP_LENGTH);
    put(OTP, 0, FLASH_OTP_LENGTH, 0xFF);
    lend(OPTIONS, FLASH_OPTIONS_LENGTH);
    put(OPTIONS, 0, FLASH_OPTIONS_LENGTH, 0xFF);
    put(OPTIONS, FLASH_OPTIONS_RDP_AT, 1, FLASH_RDP_LEVEL_0);
    lend_patterned(SRAM, FLASH_SRAM_LENGTH, sram_pattern);
    lend(TIMINGS, FLASH_TIMINGS_LENGTH);
    for (row = 0; row < FLASH_TIMING_ROWS; row++)
        for (column = 0; column < FLASH_TIMING_COLUMNS; column++)
            put_timing(row, column, 1000 * (row + 1) + 100 * (column + 1));
    lend_patterned(SCRAP, main_length(n), scrap_pattern);
}

void expect_regressed(void)
{
    expect(MAIN_FLASH, 0, lent[MAIN_FLASH].length, 0xFF);
    expect(OPTIONS, FLASH_OPTIONS_RDP_AT, 1, FLASH_RDP_LEVEL_0);
    expect(SRAM, 0, FLASH_SRAM_LENGTH, 0x00);
}

/* Comparing ----------------------------------------------------------- */

static void differ(void)
{
    if (!case_differs)
        printf("host: case \"%s\"%s differs\n", case_name, case_part);
    case_differs = true;
}

static uint8_t guard_byte(size_t i)
{
    return (uint8_t)(0xC3 + 7 * i);
}

static void lay_guards(const struct lent *buffer)
{
    size_t i;

    for (i = 0; i < GUARD; i++) {
        (buffer->bytes - GUARD)[i] = guard_byte(i);
        (buffer->bytes + buffer->length)[i] = guard_byte(i);
    }
}

static void compare_guard(const struct lent *buffer, const uint8_t *guard,
                          const char *side)
{
    size_t i;

    for (i = 0; i < GUARD; i++) {
        if (guard[i] == guard_byte(i))
            continue;
        differ();
        printf("  %s: the guard %s it was written to\n", buffer->name, side);
        return;
    }
}

static void compare_bytes(const struct lent *buffer, size_t from)
{
    size_t i = from;

    if (memcmp(buffer->bytes + from, buffer->expected + from,
               buffer->length - from) == 0)
        return;
    while (buffer->bytes[i] == buffer->expected[i])
        i++;
    differ();
    printf("  %s: byte %lX is %02X, expected %02X\n", buffer->name,
           (unsigned long)i, buffer->bytes[i], buffer->expected[i]);
}

static void print_answer(const char *title, const uint8_t *record)
{
    unsigned i;

    printf("%s", title);
    for (i = 0; i < FLASH_ANSWER_LENGTH; i++)
        printf(i == FLASH_ANSWER_VALUE_AT ? "  %02X" : " %02X", record[i]);
    printf("\n");
}

/* Records in full, since one byte of an answer says little. */
static void compare_answers(enum part part)
{
    const uint8_t *bytes = lent[ANSWERS].bytes;
    size_t i;

    for (i = 0; i < granted_length; i += FLASH_ANSWER_LENGTH) {
        if (memcmp(bytes + i, granted[part] + i, FLASH_ANSWER_LENGTH) == 0)
            continue;
        differ();
        printf("  answer of call %lu:\n",
               (unsigned long)(i / FLASH_ANSWER_LENGTH));
        print_answer("    is      ", bytes + i);
        print_answer("    expected", granted[part] + i);
        return;
    }
}

static void compare_result(uint32_t got, uint32_t result)
{
    if (got == result)
        return;
    differ();
    printf("  result %lu, expected %lu\n", (unsigned long)got,
           (unsigned long)result);
}

static void compare_buffer(const struct lent *buffer, size_t from)
{
    compare_bytes(buffer, from);
    compare_guard(buffer, buffer->bytes - GUARD, "before");
    compare_guard(buffer, buffer->bytes + buffer->length, "after");
}

/* Cases --------------------------------------------------------------- */

static void name_case(const char *name, va_list details)
{
    vsnprintf(case_name, sizeof case_name, name, details);
    if (names_shown) {
        printf("%s\n", case_name);
        fflush(stdout);
    }
    case_part = "";
    case_differs = false;
}

static void count_case(void)
{
    cases++;
    if (case_differs)
        differing++;
}

uint8_t *pointer(enum buffer which)
{
    return lent[which].null ? NULL : lent[which].bytes;
}

/* Writing ------------------------------------------------------------- */

void start_writing(const char *name, ...)
{
    va_list details;

    va_start(details, name);
    name_case(name, details);
    va_end(details);
    lay_guards(&lent[JOB]);
}

void end_writing(uint32_t got, uint32_t result)
{
    compare_result(got, result);
    compare_buffer(&lent[JOB], 0);
    count_case();
}

/* Running ------------------------------------------------------------- */

static void ready_answers(enum part part, uint32_t result)
{
    put(ANSWERS, 0, lent[ANSWERS].length, UNTOUCHED);
    if (result == 0)
        memcpy(lent[ANSWERS].expected, granted[part], granted_length);
}

static uint32_t run_job(enum part part)
{
    uint32_t (*job_run)(uint8_t *, size_t, uint8_t *, size_t,
                        uint8_t *, size_t, uint8_t *, size_t,
                        const uint8_t *, size_t, const uint8_t *, size_t,
                        const uint8_t *, size_t, uint8_t *, size_t) =
        part == CACHED ? flash_job_run : flash_job_run_uncached;

    return job_run(pointer(MAIN_FLASH), lent[MAIN_FLASH].length,
                   pointer(OTP), lent[OTP].length,
                   pointer(OPTIONS), lent[OPTIONS].length,
                   pointer(SRAM), lent[SRAM].length,
                   pointer(TIMINGS), lent[TIMINGS].length,
                   pointer(SCRAP), lent[SCRAP].length,
                   pointer(JOB), lent[JOB].length,
                   pointer(ANSWERS), lent[ANSWERS].length);
}

static void compare_run(enum part part, uint32_t got, uint32_t result)
{
    bool answered = got == 0 && result == 0;
    unsigned i;

    compare_result(got, result);
    if (answered)
        compare_answers(part);
    for (i = 0; i < BUFFERS; i++)
        compare_buffer(&lent[i], answered && i == ANSWERS ? granted_length : 0);
}

static void run_on(enum part part, uint32_t result)
{
    unsigned i;

    case_part = part == CACHED ? "" : " on the uncached part";
    ready_answers(part, result);
    for (i = 0; i < BUFFERS; i++)
        lay_guards(&lent[i]);
    compare_run(part, run_job(part), result);
}

/* What a run may change, kept for the next one, and as it was before. */
static void keep_cells(void)
{
    unsigned i;

    for (i = MAIN_FLASH; i <= SRAM; i++)
        memcpy(lent[i].before, lent[i].bytes, lent[i].length);
}

static void restore_cells(void)
{
    unsigned i;

    for (i = MAIN_FLASH; i <= SRAM; i++)
        memcpy(lent[i].bytes, lent[i].before, lent[i].length);
}

void run(uint32_t result, const char *name, ...)
{
    va_list details;

    va_start(details, name);
    name_case(name, details);
    va_end(details);
    keep_cells();
    run_on(UNCACHED, result);
    restore_cells();
    run_on(CACHED, result);
    count_case();
}

int report(void)
{
    printf("host: %u cases, %u differ\n", cases, differing);
    return differing == 0 ? 0 : 1;
}
