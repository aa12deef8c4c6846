/*
 * The 24 timings: which one each operation takes, the range of each, and
 * refusal 2.
 */
#include "bench.h"
#include "calls.h"
#include "cases.h"

static void timed_operation(unsigned row, unsigned column, uint32_t us)
{
    lend_part(6);
    put_timing(row, column, us);
    new_job();
    reset(BOOT_FLASH);  answer(DONE, 0);
    open_cr(CPU);
    start_operation(row, column);
    pass_us(us - 1);      answer(DONE, 0);
    read_by(CPU, 4, SR);  answer(DONE, BSY);
    pass_us(1);           answer(DONE, 0);
    read_by(CPU, 4, SR);  answer(DONE, 0);
    run(0, "PSIZE %u, column %u: %lu microseconds", row, column,
        (unsigned long)us);
}

static void refused_timing(unsigned row, unsigned column, uint32_t us)
{
    lend_part(4);
    put_timing(row, column, us);
    changing_job();
    run(2, "PSIZE %u, column %u: timing of %lu", row, column,
        (unsigned long)us);
}

/* A regression takes a mass erase and an option change, one after the other. */
static void waited_regression(unsigned row, uint32_t us)
{
    put(OPTIONS, RDP, 1, 0x55);
    new_job();
    reset(BOOT_FLASH);                    answer(DONE, 0);
    open_cr(CPU);
    write_by(CPU, 4, CR, PSIZE(row));     answer(DONE, 0);
    open_optcr(CPU);
    write_by(CPU, 4, OPTCR, 0x0FFFAAEE);  answer(DONE, 0);
    wait_ms(120000);                      answer(DONE, us);
    expect_regressed();
    run(0, "regression with PSIZE %u: %lu microseconds", row,
        (unsigned long)us);
}

static void timed_regression(unsigned row, uint32_t us)
{
    lend_part(4);
    waited_regression(row, us);
}

/* 24 numbers that differ, each of four bytes that all count. */
static uint32_t numbered(unsigned i)
{
    return 0x01020304u + 1000003u * i;
}

/*
 * A part whose timings are those numbers in document 01's order, byte by byte:
 * rows by PSIZE; in each program, erase 16, 64 and 128 KiB, mass erase, option.
 */
static void lend_numbered_part(void)
{
    unsigned i, k;

    lend_part(6);
    for (i = 0; i < 24; i++)
        for (k = 0; k < 4; k++)
            put(TIMINGS, 4 * i + k, 1, (uint8_t)(numbered(i) >> (8 * k)));
}

/* Whatever is started, a wait for its end tells the number in its place. */
static void numbered_timings(void)
{
    unsigned row, column;

    for (row = 0; row < 4; row++) {
        for (column = 0; column < 6; column++) {
            lend_numbered_part();
            new_job();
            reset(BOOT_FLASH);    answer(DONE, 0);
            open_cr(CPU);
            start_operation(row, column);
            wait_ms(120000);      answer(DONE, numbered(6 * row + column));
            read_by(CPU, 4, SR);  answer(DONE, 0);
            run(0, "PSIZE %u, column %u: number %u of 24 timings", row, column,
                6 * row + column);
        }
        lend_numbered_part();
        waited_regression(row, numbered(6 * row + 4) + numbered(6 * row + 5));
    }
}

/* 60,000,000 microseconds twice: the longest operation that there is. */
static void longest_operation(void)
{
    lend_part(4);
    put(OPTIONS, RDP, 1, 0x00);
    put_timing(FLASH_TIMING_X8, FLASH_TIMING_MASS_ERASE, 60000000);
    put_timing(FLASH_TIMING_X8, FLASH_TIMING_OPTION, 60000000);
    new_job();
    reset(BOOT_FLASH);                    answer(DONE, 0);
    open_optcr(CPU);
    write_by(CPU, 4, OPTCR, 0x0FFFAAEE);  answer(DONE, 0);
    wait_ms(119999);                      answer(WAIT_EXPIRED, 119999000);
    wait_ms(1);                           answer(DONE, 1000);
    expect_regressed();
    run(0, "regression of 120,000,000 microseconds");
}

void timing_cases(void)
{
    static const uint32_t usual[4][6] = {
        {1100, 1200, 1300, 1400, 1500, 1600},
        {2100, 2200, 2300, 2400, 2500, 2600},
        {3100, 3200, 3300, 3400, 3500, 3600},
        {4100, 4200, 4300, 4400, 4500, 4600},
    };
    unsigned row, column;

    for (row = 0; row < FLASH_TIMING_ROWS; row++) {
        for (column = 0; column < FLASH_TIMING_COLUMNS; column++) {
            timed_operation(row, column, usual[row][column]);
            timed_operation(row, column, 1);
            timed_operation(row, column, 60000000);
            refused_timing(row, column, 0);
            refused_timing(row, column, 60000001);
            refused_timing(row, column, 0xFFFFFFFF);
        }
    }
    timed_regression(0, 3100);
    timed_regression(1, 5100);
    timed_regression(2, 7100);
    timed_regression(3, 9100);
    numbered_timings();
    longest_operation();
}
