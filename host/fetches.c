/*
 * Instruction fetches: four bytes of main flash for the CPU, at any alignment,
 * and what refuses them, in the order 10, 7, 11, 13. The lines are off here; a
 * fetch that is done is the same with them, while the cells stay as they are.
 */
#include "bench.h"
#include "calls.h"
#include "cases.h"

static uint64_t cells(uint32_t offset)
{
    uint64_t value = 0;
    unsigned i;

    for (i = 4; i-- > 0;)
        value = value << 8 | pattern(offset + i);
    return value;
}

/* At each place of a row, on both sides of a sector, and at the very end. */
static void done(unsigned n, uint32_t acr)
{
    uint32_t offset, end = (uint32_t)main_length(n);

    lend_part(n);
    new_job();
    reset(BOOT_FLASH);            answer(DONE, 0);
    write_by(CPU, 4, ACR, acr);   answer(DONE, 0);
    for (offset = 0; offset < 35; offset++) {
        fetch(MAIN_START + offset);            answer(DONE, cells(offset));
    }
    for (offset = end - 20; offset <= end - 4; offset++) {
        fetch(MAIN_START + offset);            answer(DONE, cells(offset));
    }
    if (n > 1) {
        fetch(MAIN_START + 0x3FFE);            answer(DONE, cells(0x3FFE));
    }
    fetch(MAIN_START + 0x1234);                answer(DONE, 0x91908F8E);
    run(0, "fetch: %u sectors, ACR %lX", n, (unsigned long)acr);
}

/* Beside a read, which a debugger may make, a fetch is the CPU's. */
static void with_mark_at_level_0(enum boot boot)
{
    lend_part(4);
    new_job();
    reset(boot);               answer(DONE, 0);
    debugger_on();             answer(DONE, 0);
    fetch(MAIN_START + 2);     answer(DONE, 0x05040302);
    debugger_off();            answer(DONE, 0);
    fetch(MAIN_START + 2);     answer(DONE, 0x05040302);
    run(0, "fetch: level 0 after boot %u and a debugger", (unsigned)boot);
}

/* What a read could have is none of a fetch's, nor are registers and SRAM. */
static void outside(unsigned n)
{
    uint32_t end = MAIN_START + (uint32_t)main_length(n);
    const uint32_t addresses[] = {
        0, MAIN_START - 4, MAIN_START - 1, end - 3, end - 1, end, end + 0x4000,
        SYSTEM_START, OTP_START - 2, OTP_START, OTP_LOCKS, OPTIONS_START,
        OPTIONS_START + 12, ACR, KEYR, SR, CR, OPTCR, OPTCR + 1, SRAM_START,
        SRAM_START + 0xFFC, 0xFFFFFFFC, 0xFFFFFFFF,
    };
    unsigned i;

    lend_part(n);
    new_job();
    reset(BOOT_FLASH);             answer(DONE, 0);
    for (i = 0; i < sizeof addresses / sizeof addresses[0]; i++) {
        fetch(addresses[i]);       answer(OUTSIDE_MAP, 0);
    }
    read_by(CPU, 4, SR);           answer(DONE, 0);
    run(0, "fetch: outside main flash of %u sectors", n);
}

/* Each before all that come later. */
static void order_of_refusals(void)
{
    lend_part(4);
    put(OPTIONS, RDP, 1, 0x55);
    new_job();
    fetch(OTP_START);                     answer(NO_POWER, 0);
    fetch(MAIN_START);                    answer(NO_POWER, 0);
    reset(BOOT_FLASH);                    answer(DONE, 0);
    open_cr(CPU);
    write_by(CPU, 4, CR, PG);             answer(DONE, 0);
    write_by(CPU, 1, MAIN_START + 9, 0);  answer(DONE, 0);
    fetch(MAIN_START);                    answer(STALLED, 0);
    fetch(OTP_START);                     answer(OUTSIDE_MAP, 0);
    debugger_on();                        answer(DONE, 0);
    fetch(MAIN_START + 0xFFFD);           answer(OUTSIDE_MAP, 0);
    fetch(MAIN_START + 0xFFFC);           answer(STALLED, 0);
    wait_ms(2);                           answer(DONE, 1100);
    fetch(MAIN_START + 0xFFFC);           answer(CLOSED, 0);
    fetch(MAIN_START + 0xFFFD);           answer(OUTSIDE_MAP, 0);
    debugger_off();                       answer(DONE, 0);
    fetch(MAIN_START + 8);                answer(CLOSED, 0);
    reset(BOOT_FLASH);                    answer(DONE, 0);
    fetch(MAIN_START + 8);                answer(DONE, 0x0B0A0008);
    expect(MAIN_FLASH, 9, 1, 0x00);
    run(0, "fetch: the order of refusals");
}

static void closed(uint8_t rdp, enum boot boot)
{
    lend_part(4);
    put(OPTIONS, RDP, 1, rdp);
    new_job();
    reset(boot);            answer(DONE, 0);
    fetch(MAIN_START + 1);  answer(CLOSED, 0);
    read_by(CPU, 4, SR);    answer(DONE, 0);
    reset(BOOT_FLASH);      answer(DONE, 0);
    fetch(MAIN_START + 1);  answer(DONE, 0x04030201);
    run(0, "fetch: RDP %02X after boot %u", rdp, (unsigned)boot);
}

/* Clean code at level 2 runs; under the mark nothing does. */
static void level_2(void)
{
    lend_part(4);
    put(OPTIONS, RDP, 1, 0x55);
    new_debugger_job(0x0FFFCCEE);
    wait_ms(2);             answer(DONE, 1600);
    fetch(MAIN_START);      answer(CLOSED, 0);
    reset(BOOT_FLASH);      answer(DONE, 0);
    fetch(MAIN_START);      answer(DONE, 0x03020100);
    expect(OPTIONS, RDP, 1, 0xCC);
    run(0, "fetch: level 2");
}

void fetch_cases(void)
{
    static const unsigned parts[] = {1, 4, 5, 12};
    unsigned i, boot;

    for (i = 0; i < sizeof parts / sizeof parts[0]; i++) {
        done(parts[i], 0);
        done(parts[i], ICEN);
        done(parts[i], ICEN | DCEN);
        outside(parts[i]);
    }
    for (boot = BOOT_FLASH; boot <= BOOT_RAM; boot++)
        with_mark_at_level_0((enum boot)boot);
    order_of_refusals();
    closed(0x00, BOOT_SYSTEM);
    closed(0x55, BOOT_RAM);
    closed(0xFF, BOOT_SYSTEM);
    level_2();
}
