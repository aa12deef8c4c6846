/* Document 01's own example byte for byte, and the longest job there is. */
#include "bench.h"
#include "calls.h"
#include "cases.h"

/* The part of the program `rehearse`: blank, level 0, all timings alike. */
static void lend_rehearse_part(void)
{
    unsigned row, column;

    lend_part(4);
    put(MAIN_FLASH, 0, 65536, 0xFF);
    put(SRAM, 0, 4096, 0x00);
    for (row = 0; row < FLASH_TIMING_ROWS; row++)
        for (column = 0; column < FLASH_TIMING_COLUMNS; column++)
            put_timing(row, column, 1000);
}

static void published_example(void)
{
    static const uint8_t job[39] = {
        0x46, 0x4A, 0x42, 0x01, 0x00, 0x02, 0x00,
        0, 0, 0, 0, 0, 0, 0, 0, 0, 0, 0, 0, 0, 0, 0, 0,
        0x03, 0x00, 0x04, 0x00, 0x14, 0x3C, 0x02, 0x40,
        0, 0, 0, 0, 0, 0, 0, 0,
    };
    lend_rehearse_part();
    lend(JOB, 39);
    put_bytes(JOB, 0, job, 39);
    lend(ANSWERS, 32);
    expect_answer(0, DONE, 0);
    expect_answer(1, DONE, 0x0FFFAAED);
    run(0, "document 01's example");
}

/* 4 calls to get ready, then 998 bytes programmed, each with its wait. */
static void two_thousand_calls(void)
{
    uint32_t i;

    lend_part(4);
    new_open_job(PG);
    for (i = 0; i < 998; i++) {
        write_by(CPU, 1, MAIN_START + 0x3F00 + i, 0);  answer(DONE, 0);
        wait_ms(2);                                    answer(DONE, 1100);
    }
    expect(MAIN_FLASH, 0x3F00, 998, 0x00);
    run(0, "2,000 calls that program 998 bytes");
}

static void two_thousand_reads(void)
{
    uint32_t i;

    lend_part(4);
    new_job();
    reset(BOOT_FLASH);  answer(DONE, 0);
    for (i = 0; i < 1999; i++) {
        read_by(CPU, 1, MAIN_START + i);
        answer(DONE, pattern(i));
    }
    run(0, "2,000 calls that read 1,999 bytes");
}

void example_cases(void)
{
    published_example();
    two_thousand_calls();
    two_thousand_reads();
}
