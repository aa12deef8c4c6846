/* Refusal 1: the lengths of the part's buffers and of the timings. */
#include <stddef.h>

#include "bench.h"
#include "calls.h"
#include "cases.h"

/* How long sector n - 1 takes to erase with PSIZE 0: by its size. */
static uint32_t last_sector_us(unsigned n)
{
    if (n <= 4)
        return 1200;
    return n == 5 ? 1300 : 1400;
}

/* The map ends where the buffer ends, and the sectors where n says. */
static void fitting_main_length(unsigned n)
{
    size_t length = main_length(n);
    uint32_t end = MAIN_START + (uint32_t)length;

    lend_part(n);
    new_job();
    reset(BOOT_FLASH);         answer(DONE, 0);
    read_by(CPU, 1, end - 1);  answer(DONE, pattern(length - 1));
    read_by(CPU, 1, end);      answer(OUTSIDE_MAP, 0);
    read_by(CPU, 2, end - 1);  answer(OUTSIDE_MAP, 0);
    open_cr(CPU);
    write_by(CPU, 4, CR, STRT | SER | SNB(n));      answer(FLAG_RAISED, WRPERR);
    write_by(CPU, 4, CR, STRT | SER | SNB(n - 1));  answer(DONE, 0);
    wait_ms(2);                answer(DONE, last_sector_us(n));
    read_by(CPU, 1, end - 1);  answer(DONE, 0xFF);
    expect(MAIN_FLASH, main_length(n - 1), length - main_length(n - 1), 0xFF);
    run(0, "main flash with n = %u", n);
}

static void wrong_length(enum buffer which, size_t length)
{
    lend_part(4);
    changing_job();
    put(which, 0, length, 0x01);
    lend(which, length);
    run(1, "%s of %lu bytes", lent[which].name, (unsigned long)length);
}

static void wrong_main_lengths(void)
{
    static const size_t lengths[] = {
        0, 1, 2, 8192, 24576, 81920, 98304, 114688, 196608, 327680, 589824,
        983040, 1064960, 1114112, 1179648, 1310720,
    };
    unsigned i, n;

    for (i = 0; i < sizeof lengths / sizeof lengths[0]; i++)
        wrong_length(MAIN_FLASH, lengths[i]);
    for (n = 1; n <= 12; n++) {
        wrong_length(MAIN_FLASH, main_length(n) - 1);
        wrong_length(MAIN_FLASH, main_length(n) + 1);
    }
}

static void wrong_small_lengths(void)
{
    static const size_t otp[] = {0, 1, 16, 512, 527, 529, 544};
    static const size_t options[] = {0, 1, 8, 10, 15, 17, 32};
    static const size_t sram[] = {0, 1, 16, 528, 2048, 4095, 4097, 4112, 8192};
    static const size_t timings[] = {0, 1, 24, 92, 95, 97, 100, 192};
    unsigned i;

    for (i = 0; i < sizeof otp / sizeof otp[0]; i++)
        wrong_length(OTP, otp[i]);
    for (i = 0; i < sizeof options / sizeof options[0]; i++)
        wrong_length(OPTIONS, options[i]);
    for (i = 0; i < sizeof sram / sizeof sram[0]; i++)
        wrong_length(SRAM, sram[i]);
    for (i = 0; i < sizeof timings / sizeof timings[0]; i++)
        wrong_length(TIMINGS, timings[i]);
}

static void null_buffer(enum buffer which, uint32_t result)
{
    lend_part(4);
    changing_job();
    lend_null(which);
    run(result, "null pointer for %s of 0 bytes", lent[which].name);
}

static void null_buffers(void)
{
    unsigned i;

    null_buffer(MAIN_FLASH, 1);
    null_buffer(OTP, 1);
    null_buffer(OPTIONS, 1);
    null_buffer(SRAM, 1);
    null_buffer(TIMINGS, 1);
    null_buffer(JOB, 3);
    null_buffer(ANSWERS, 6);
    for (i = 0; i < BUFFERS; i++)
        lend_null((enum buffer)i);
    run(1, "null pointers everywhere");
}

void length_cases(void)
{
    unsigned n;

    for (n = 1; n <= 12; n++)
        fitting_main_length(n);
    wrong_main_lengths();
    wrong_small_lengths();
    null_buffers();
}
