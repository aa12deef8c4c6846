/* The head of a job and its length: refusals 3 and 4, and jobs of no calls. */
#include "bench.h"
#include "calls.h"
#include "cases.h"

enum { SOUND_LENGTH = FLASH_JOB_LENGTH(6) };

static void sound_job(void)
{
    lend_part(1);
    changing_job();
}

/* Every beginning of a sound job: too short for its mark, or for its count. */
static void cut_jobs(void)
{
    size_t length;

    for (length = 0; length < SOUND_LENGTH; length++) {
        sound_job();
        lend(JOB, length);
        run(length < 5 ? 3 : 4, "job cut to %lu bytes", (unsigned long)length);
    }
}

static void longer_jobs(void)
{
    static const size_t more[] = {1, 2, 15, 16, 17, 100000};
    unsigned i;

    for (i = 0; i < sizeof more / sizeof more[0]; i++) {
        sound_job();
        put(JOB, SOUND_LENGTH, more[i], 0);
        lend(JOB, SOUND_LENGTH + more[i]);
        run(4, "job with %lu bytes too many", (unsigned long)more[i]);
    }
}

static void wrong_marks(void)
{
    static const uint8_t changes[4] = {0x01, 0x20, 0x80, 0xFF};
    unsigned place, i;

    for (place = 0; place < 3; place++) {
        for (i = 0; i < 4; i++) {
            sound_job();
            put(JOB, place, 1, lent[JOB].bytes[place] ^ changes[i]);
            run(3, "mark with byte %u changed by %02X", place, changes[i]);
        }
    }
    sound_job();
    put(JOB, 0, 1, 'B');
    put(JOB, 2, 1, 'F');
    run(3, "mark read backwards");
}

static void wrong_versions(void)
{
    static const uint16_t versions[] = {0, 2, 255, 256, 257, 65535};
    unsigned i;

    for (i = 0; i < sizeof versions / sizeof versions[0]; i++) {
        sound_job();
        put(JOB, FLASH_JOB_VERSION_AT, 1, (uint8_t)versions[i]);
        put(JOB, FLASH_JOB_VERSION_AT + 1, 1, (uint8_t)(versions[i] >> 8));
        run(3, "version %u", versions[i]);
    }
}

/* All calls are resets, so that nothing but the count can be at fault. */
static void job_of_resets(unsigned count, size_t length, size_t answers)
{
    lend_part(1);
    new_job();
    put(JOB, FLASH_JOB_COUNT_AT, 1, (uint8_t)count);
    put(JOB, FLASH_JOB_COUNT_AT + 1, 1, (uint8_t)(count >> 8));
    put(JOB, FLASH_JOB_HEAD_LENGTH, length - FLASH_JOB_HEAD_LENGTH, 0);
    lend(JOB, length);
    lend(ANSWERS, answers);
    run(4, "count %u in a job of %lu bytes", count, (unsigned long)length);
}

static void wrong_counts(void)
{
    job_of_resets(0, 8, 0);
    job_of_resets(0, 23, 16);
    job_of_resets(0, 32007, 32000);
    job_of_resets(1, 7, 16);
    job_of_resets(1, 39, 32);
    job_of_resets(3, 39, 48);
    job_of_resets(1999, 32007, 32000);
    job_of_resets(2000, 32006, 32000);
    job_of_resets(2000, 32008, 32000);
    job_of_resets(2001, 32007, 32016);
    job_of_resets(2001, 32023, 32016);
    job_of_resets(2256, 36103, 36096);
    job_of_resets(65535, 23, 16);
    job_of_resets(65535, 1048567, 1048560);
    /* 7 + 16 * 65,535 in 16 bits only */
    job_of_resets(65535, 65527, 1048560);
}

static void head_alone(void)
{
    lend_part(4);
    new_job();
}

/* It runs, however much room there is, and leaves every byte as it is. */
static void jobs_of_no_calls(void)
{
    static const size_t rooms[] = {0, 1, 15, 16, 32000};
    unsigned i;

    for (i = 0; i < sizeof rooms / sizeof rooms[0]; i++) {
        head_alone();
        lend(ANSWERS, rooms[i]);
        run(0, "no calls, %lu bytes for answers", (unsigned long)rooms[i]);
    }
    head_alone();
    lend_null(ANSWERS);
    run(0, "no calls, null pointer for answers");
}

/* What comes before the count is looked at as in any job. */
static void refused_jobs_of_no_calls(void)
{
    head_alone();
    put(JOB, FLASH_JOB_VERSION_AT, 1, 2);
    run(3, "no calls, version 2");
    put_timing(FLASH_TIMING_X64, FLASH_TIMING_OPTION, 0);
    run(2, "no calls, a timing of 0 and version 2");
    lend(OTP, FLASH_OTP_LENGTH - 1);
    run(1, "no calls, short OTP, a timing of 0 and version 2");
    head_alone();
    lend(MAIN_FLASH, 0);
    run(1, "no calls, no main flash");
}

void head_cases(void)
{
    cut_jobs();
    longer_jobs();
    wrong_marks();
    wrong_versions();
    wrong_counts();
    jobs_of_no_calls();
    refused_jobs_of_no_calls();
}
