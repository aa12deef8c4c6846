/*
 * The job writer: the result of each call and every byte of the buffer after
 * it, and what flash_job_run makes of the jobs. This file is C++ as well, since
 * the writer's header has to serve there too.
 */
#include <string.h>

#include "bench.h"
#include "calls.h"
#include "cases.h"
#include "job_writer.h"

/* Document 02's numbers, where only the preprocessor is at hand. */
#if FLASH_WRITER_DONE != 0 || FLASH_WRITER_MALFORMED != 5 \
    || FLASH_WRITER_NO_ROOM != 20
#error "the results of the writer"
#endif

#define WRITTEN   FLASH_WRITER_DONE
#define MALFORMED FLASH_WRITER_MALFORMED
#define NO_ROOM   FLASH_WRITER_NO_ROOM

enum { STALE = 0xA5 };

struct fields {
    uint32_t kind, who, width, number;
    uint64_t value;
};

static const uint8_t head[7] = {0x46, 0x4A, 0x42, 0x01, 0x00, 0x00, 0x00};
static const struct fields reset_call = {0, 0, 0, 0, 0};

/* Calls, and the records that they have to become. */
static const struct sample {
    struct fields call;
    uint8_t record[16];
} samples[] = {
    {{0, 0, 0, 0, 0}, {0}},
    {{0, 0, 0, 2, 0}, {0, 0, 0, 0, 2}},
    {{1, 0, 0, 0, 0}, {1}},
    {{2, 0, 0, 0, 0}, {2}},
    {{3, 0, 4, 0x40023C0C, 0}, {3, 0, 4, 0, 0x0C, 0x3C, 0x02, 0x40}},
    {{3, 1, 8, 0xFFFFFFFF, 0}, {3, 1, 8, 0, 0xFF, 0xFF, 0xFF, 0xFF}},
    {{4, 0, 1, 0x08000001, 0xFF}, {4, 0, 1, 0, 0x01, 0x00, 0x00, 0x08, 0xFF}},
    {{4, 1, 2, 0x1FFF7800, 0xFFFE},
     {4, 1, 2, 0, 0x00, 0x78, 0xFF, 0x1F, 0xFE, 0xFF}},
    {{4, 0, 4, 0x12345678, 0xFFFFFFFF},
     {4, 0, 4, 0, 0x78, 0x56, 0x34, 0x12, 0xFF, 0xFF, 0xFF, 0xFF}},
    {{4, 1, 8, 0, 0x0123456789ABCDEF},
     {4, 1, 8, 0, 0, 0, 0, 0, 0xEF, 0xCD, 0xAB, 0x89, 0x67, 0x45, 0x23, 0x01}},
    /* Times above their limits are answers of their calls. */
    {{5, 0, 0, 4000000000u, 0}, {5, 0, 0, 0, 0x00, 0x28, 0x6B, 0xEE}},
    {{6, 0, 0, 120001, 0}, {6, 0, 0, 0, 0xC1, 0xD4, 0x01, 0x00}},
    /* So are fetches outside main flash. */
    {{7, 0, 4, 0x08000001, 0}, {7, 0, 4, 0, 0x01, 0x00, 0x00, 0x08}},
    {{7, 0, 4, 0xFFFFFFFF, 0}, {7, 0, 4, 0, 0xFF, 0xFF, 0xFF, 0xFF}},
};

enum { SAMPLES = sizeof samples / sizeof samples[0] };

/* One call of the writer each, as a case of its own ------------------- */

static void begin(uint32_t result)
{
    start_writing("begin in %lu bytes", (unsigned long)lent[JOB].length);
    if (result == WRITTEN)
        expect_bytes(JOB, 0, head, 7);
    end_writing(flash_job_begin(pointer(JOB), lent[JOB].length), result);
}

/* The record that is expected stands at `record`, if the call is written. */
static void append(uint32_t count, const struct fields *call,
                   const uint8_t *record, uint32_t result)
{
    start_writing("append %lX %lX %lX %lX %lX at %lu in %lu bytes",
                  (unsigned long)call->kind, (unsigned long)call->who,
                  (unsigned long)call->width, (unsigned long)call->number,
                  (unsigned long)call->value, (unsigned long)count,
                  (unsigned long)lent[JOB].length);
    if (result == WRITTEN)
        expect_bytes(JOB, 7 + 16 * (size_t)count, record, 16);
    end_writing(flash_job_append(pointer(JOB), lent[JOB].length, count,
                                 call->kind, call->who, call->width,
                                 call->number, call->value),
                result);
}

static void append_reset(uint32_t count, uint32_t result)
{
    append(count, &reset_call, samples[0].record, result);
}

static void close_job(uint32_t count, uint32_t result)
{
    start_writing("close at %lu in %lu bytes", (unsigned long)count,
                  (unsigned long)lent[JOB].length);
    if (result == WRITTEN) {
        expect(JOB, 5, 1, (uint8_t)count);
        expect(JOB, 6, 1, (uint8_t)(count >> 8));
    }
    end_writing(flash_job_close(pointer(JOB), lent[JOB].length, count), result);
}

/* A buffer of so many bytes, stale from the byte given on. */
static void lend_buffer(size_t length, size_t stale_from)
{
    lend(JOB, length);
    if (length > stale_from)
        put(JOB, stale_from, length - stale_from, STALE);
}

static void lend_stale(size_t length)
{
    lend_buffer(length, 0);
}

/* Room ---------------------------------------------------------------- */

static void heads_and_counts(void)
{
    size_t length;

    for (length = 0; length <= 24; length++) {
        lend_stale(length);
        close_job(0x0102, length < 7 ? NO_ROOM : WRITTEN);
        begin(length < 7 ? NO_ROOM : WRITTEN);
        append_reset(0, length < 23 ? NO_ROOM : WRITTEN);
    }
    lend_null(JOB);
    begin(NO_ROOM);
    append_reset(0, NO_ROOM);
    close_job(0, NO_ROOM);
}

/* From no byte of the record to one byte more than it. */
static void last_records(uint32_t count)
{
    size_t more;

    for (more = 0; more <= 17; more++) {
        lend_stale(7 + 16 * (size_t)count + more);
        append_reset(count, more < 16 ? NO_ROOM : WRITTEN);
    }
}

static void counts_too_big(void)
{
    /* 16 times some of them is 0 or 16 in 32 bits. */
    static const uint32_t counts[] = {
        2000, 2001, 2498, 4096, 65535, 65536, 65537, 0x0FFFFFFF, 0x10000000,
        0x10000001, 0x7FFFFFFF, 0x80000000, 0xFFFFFFFF,
    };
    unsigned i;

    lend_stale(40000);
    append_reset(1999, WRITTEN);
    close_job(1999, WRITTEN);
    close_job(2000, WRITTEN);
    for (i = 0; i < sizeof counts / sizeof counts[0]; i++) {
        append_reset(counts[i], NO_ROOM);
        if (counts[i] > 2000)
            close_job(counts[i], NO_ROOM);
    }
}

/* Calls --------------------------------------------------------------- */

static void sound_calls(void)
{
    uint32_t i;

    for (i = 0; i < SAMPLES; i++) {
        lend_stale(7 + 16 * (SAMPLES + 1));
        append(i, &samples[i].call, samples[i].record, WRITTEN);
    }
}

/* 5 with room, without it, and where the count is too big: never 20. */
static void malformed(uint32_t kind, uint32_t who, uint32_t width,
                      uint32_t number, uint64_t value)
{
    struct fields call;

    call.kind = kind;
    call.who = who;
    call.width = width;
    call.number = number;
    call.value = value;
    lend_stale(7 + 16);
    append(0, &call, NULL, MALFORMED);
    append(1, &call, NULL, MALFORMED);
    append(2000, &call, NULL, MALFORMED);
    lend_stale(6);
    append(0, &call, NULL, MALFORMED);
}

/* Resets, on, off, passes and waits use neither who, width nor value. */
static void unused_fields(void)
{
    static const uint32_t kinds[5] = {0, 1, 2, 5, 6};
    static const uint32_t fields[4] = {1, 4, 0x100, 0xFFFFFFFF};
    unsigned i, j;

    for (i = 0; i < 5; i++) {
        for (j = 0; j < 4; j++) {
            malformed(kinds[i], fields[j], 0, 0, 0);
            malformed(kinds[i], 0, fields[j], 0, 0);
            malformed(kinds[i], 0, 0, 0, fields[j]);
        }
        malformed(kinds[i], 0, 0, 0, 0x8000000000000000);
    }
    for (j = 0; j < 4; j++) {
        malformed(1, 0, 0, fields[j], 0);
        malformed(2, 0, 0, fields[j], 0);
        malformed(3, 0, 4, SR, fields[j]);
        malformed(7, fields[j], 4, MAIN_START, 0);
        malformed(7, 0, 4, MAIN_START, fields[j]);
    }
}

/* The lowest byte of some of them alone would be sound. */
static void unknown_fields(void)
{
    static const uint32_t kinds[] = {8, 255, 0x100, 0xFFFFFFFF};
    static const uint32_t whos[] = {2, 255, 0x100, 0x101, 0xFFFFFFFF};
    static const uint32_t widths[] = {0, 3,   5,     6,     7,         9,
                                      16, 255, 0x100, 0x104, 0x80000008};
    static const uint32_t boots[] = {3, 0x100, 0x10000, 0xFFFFFFFF};
    unsigned i;

    for (i = 0; i < sizeof kinds / sizeof kinds[0]; i++)
        malformed(kinds[i], 0, 0, 0, 0);
    malformed(0x103, 0, 4, 0, 0);
    malformed(0x107, 0, 4, 0, 0);
    for (i = 0; i < sizeof whos / sizeof whos[0]; i++) {
        malformed(3, whos[i], 4, SR, 0);
        malformed(4, whos[i], 4, SR, 0);
    }
    for (i = 0; i < sizeof widths / sizeof widths[0]; i++) {
        malformed(3, 0, widths[i], SR, 0);
        malformed(4, 0, widths[i], SR, 0);
        malformed(7, 0, widths[i], MAIN_START, 0);
    }
    malformed(7, 0, 1, MAIN_START, 0);
    malformed(7, 0, 2, MAIN_START, 0);
    malformed(7, 0, 8, MAIN_START, 0);
    for (i = 0; i < sizeof boots / sizeof boots[0]; i++)
        malformed(0, 0, 0, boots[i], 0);
}

static void values_too_big(void)
{
    malformed(4, 0, 1, SR, 0x100);
    malformed(4, 0, 2, SR, 0x10000);
    malformed(4, 0, 4, SR, 0x100000000);
    malformed(4, 0, 4, SR, 0xFFFFFFFFFFFFFFFF);
}

/* Whole jobs ---------------------------------------------------------- */

/* Runs what stands in the buffer as a job of so many calls. */
static void run_written(uint32_t count, uint32_t result, const char *name)
{
    size_t length = lent[JOB].length;

    lend(JOB, FLASH_JOB_LENGTH((size_t)count));
    lend(ANSWERS, FLASH_ANSWER_LENGTH * (size_t)count);
    run(result, "%s", name);
    lend_buffer(length, FLASH_JOB_LENGTH((size_t)count));
}

static void no_calls(size_t length)
{
    lend_part(1);
    expect_no_answers();
    lend_stale(length);
    begin(WRITTEN);
    run_written(0, FLASH_RESULT_RAN, "begun and run");
    close_job(0, WRITTEN);
    run_written(0, FLASH_RESULT_RAN, "begun, closed and run");
}

/* The call of a record that calls.h made. */
static struct fields fields_of(const uint8_t *record)
{
    struct fields call = {0, 0, 0, 0, 0};
    unsigned i;

    call.kind = record[0];
    call.who = record[1];
    call.width = record[2];
    for (i = 0; i < 4; i++)
        call.number |= (uint32_t)record[4 + i] << (8 * i);
    for (i = 0; i < 8; i++)
        call.value |= (uint64_t)record[8 + i] << (8 * i);
    return call;
}

static void append_from(const uint8_t *job, uint32_t from, uint32_t to)
{
    const struct fields kind_8 = {8, 0, 0, 0, 0};
    const uint8_t *record;
    struct fields call;
    uint32_t i;

    for (i = from; i < to; i++) {
        record = job + FLASH_JOB_LENGTH((size_t)i);
        call = fields_of(record);
        append(i, &kind_8, NULL, MALFORMED);
        append(i, &call, record, WRITTEN);
    }
}

/* A job written again call by call, closed after four calls and after all. */
static void written_again(void)
{
    uint8_t job[FLASH_JOB_LENGTH(6)];

    lend_part(1);
    changing_job();
    memcpy(job, lent[JOB].bytes, sizeof job);
    lend_stale(sizeof job + 5);
    begin(WRITTEN);
    append_from(job, 0, 4);
    run_written(4, FLASH_RESULT_WRONG_COUNT, "four calls, not closed");
    close_job(4, WRITTEN);
    append_from(job, 4, 6);
    append_reset(6, NO_ROOM);
    run_written(6, FLASH_RESULT_WRONG_COUNT, "six calls, closed after four");
    close_job(6, WRITTEN);
    expect(MAIN_FLASH, 0x10, 1, 0x00);
    run_written(6, FLASH_RESULT_RAN, "six calls, closed again");
}

/* The buffer has room for more. */
static void two_thousand_calls(size_t length)
{
    uint32_t i;

    lend_part(1);
    lend_stale(length);
    begin(WRITTEN);
    for (i = 0; i < 2000; i++) {
        append_reset(i, WRITTEN);
        expect_answer(i, DONE, 0);
    }
    append_reset(2000, NO_ROOM);
    close_job(2001, NO_ROOM);
    close_job(2000, WRITTEN);
    run_written(2000, FLASH_RESULT_RAN, "2,000 calls written");
}

void writing_cases(void)
{
    lend_part(1);
    heads_and_counts();
    last_records(1);
    last_records(255);
    last_records(1999);
    counts_too_big();
    sound_calls();
    unused_fields();
    unknown_fields();
    values_too_big();
    no_calls(7);
    no_calls(100);
    written_again();
    two_thousand_calls(32007);
    two_thousand_calls(40000);
}
