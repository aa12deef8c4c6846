/*
 * Program operations and erases that a reset cuts: byte i of what was running
 * is settled by byte i of the scrap, and no other cell changes.
 */
#include "bench.h"
#include "calls.h"
#include "cases.h"

/* Erases: each byte becomes the scrap's -------------------------------- */

/* The scrap starts with the sector, wherever in main flash that is. */
static void sector_erase(unsigned sector, uint32_t passed)
{
    size_t start = main_length(sector);

    lend_part(12);
    new_open_job(EOPIE | STRT | SER | SNB(sector));
    pass_us(passed);  answer(DONE, 0);
    cut(BOOT_FLASH);
    read_by(CPU, 2, MAIN_START + (uint32_t)start);  answer(DONE, 0xFDFE);
    expect_bytes(MAIN_FLASH, start, lent[SCRAP].bytes,
                 main_length(sector + 1) - start);
    run(0, "cut: erase of sector %u after %lu microseconds", sector,
        (unsigned long)passed);
}

static void mass_erase(unsigned n, uint32_t passed)
{
    lend_part(n);
    put(OPTIONS, 2, 6, 0x11);
    new_open_job(EOPIE | STRT | MER);
    pass_us(passed);                  answer(DONE, 0);
    cut(BOOT_FLASH);
    read_by(CPU, 4, MAIN_START + 4);  answer(DONE, 0xF7F8F9FA);
    expect_bytes(MAIN_FLASH, 0, lent[SCRAP].bytes, main_length(n));
    run(0, "cut: mass erase with n = %u after %lu microseconds", n,
        (unsigned long)passed);
}

static void erases(void)
{
    unsigned sector;

    for (sector = 0; sector < 12; sector++)
        sector_erase(sector, 1000);
    sector_erase(2, 0);
    sector_erase(2, 1199);
    sector_erase(4, 1299);
    sector_erase(11, 1399);
    mass_erase(1, 1);
    mass_erase(4, 1499);
    mass_erase(12, 0);
}

/* Programs: each byte becomes old AND (written OR scrap) --------------- */

/*
 * The bits of F0, CC and AA are all eight cases of old, written and scrap, and
 * CC OR AA is EE. Of the others, scrap 00 leaves a byte as if it had been
 * programmed, scrap FF as it was, and no scrap sets a bit.
 */
static const uint8_t old[8] = {0xF0, 0x0F, 0xFF, 0xFF, 0xA5, 0x3C, 0x00, 0xFF};
static const uint8_t scrap[8] = {0xAA, 0x55, 0x00, 0xFF,
                                 0x0F, 0xF0, 0xFF, 0x42};
static const uint8_t left[8] = {0xE0, 0x07, 0x00, 0xFF, 0x05, 0x30, 0x00, 0xC3};

static void program(enum buffer which, uint32_t start, uint32_t offset,
                    unsigned psize, uint32_t passed)
{
    static const uint64_t written[4] = {0xCC, 0x33CC, 0x000033CC,
                                        0x81FFC35A000033CC};
    uint8_t width = (uint8_t)(1u << psize);

    lend_part(4);
    put_bytes(which, offset, old, 8);
    put_bytes(SCRAP, 0, scrap, 8);
    new_open_job(EOPIE | PG | PSIZE(psize));
    write_by(CPU, width, start + offset, written[psize]);  answer(DONE, 0);
    pass_us(passed);                                       answer(DONE, 0);
    cut(BOOT_FLASH);
    read_by(CPU, 1, start + offset);                       answer(DONE, 0xE0);
    expect_bytes(which, offset, left, width);
    run(0, "cut: %u bytes at %lX of %s after %lu microseconds", width,
        (unsigned long)offset, lent[which].name, (unsigned long)passed);
}

/* Unaligned, but each within its row; of OTP a block and the lock bytes. */
static void programs(void)
{
    unsigned psize;

    for (psize = 0; psize < 4; psize++) {
        program(MAIN_FLASH, MAIN_START, 0x7FF5, psize, 0);
        program(MAIN_FLASH, MAIN_START, 0x7FF5, psize, 1000 * psize + 1099);
        program(OTP, OTP_START, 0x43, psize, 1000 * psize + 1099);
        program(OTP, OTP_START, FLASH_OTP_LOCKS_AT + 3, psize, 1);
    }
}

/* A cut lock byte locks its block exactly when it is left 00. */
static void lock_byte(uint8_t byte, uint8_t code, uint64_t value, uint32_t us)
{
    lend_part(4);
    put(SCRAP, 0, 1, byte);
    new_open_job(PG);
    write_by(CPU, 1, OTP_LOCKS + 3, 0x00);     answer(DONE, 0);
    cut(BOOT_FLASH);
    open_cr(CPU);
    write_by(CPU, 4, CR, PG);                  answer(DONE, 0);
    write_by(CPU, 1, OTP_START + 0x60, 0x3C);  answer(code, value);
    wait_ms(2);                                answer(DONE, us);
    expect(OTP, FLASH_OTP_LOCKS_AT + 3, 1, byte);
    if (code == DONE)
        expect(OTP, 0x60, 1, 0x3C);
    run(0, "cut: a lock byte left %02X", byte);
}

/* The reset itself ----------------------------------------------------- */

/* Whatever a cut took of it, the next one has the scrap from its start. */
static void one_scrap_for_all(void)
{
    static const uint8_t bytes[3] = {0x12, 0x34, 0x56};

    lend_part(4);
    put(MAIN_FLASH, 0x100, 4, 0xFF);
    put_bytes(SCRAP, 0, bytes, 3);
    new_open_job(PG | PSIZE(1));
    write_by(CPU, 2, MAIN_START + 0x100, 0);           answer(DONE, 0);
    cut(BOOT_FLASH);
    open_cr(CPU);
    write_by(CPU, 4, CR, PG);                          answer(DONE, 0);
    write_by(CPU, 1, MAIN_START + 0x102, 0);           answer(DONE, 0);
    cut(BOOT_FLASH);
    read_by(CPU, 4, MAIN_START + 0x100);               answer(DONE, 0xFF123412);
    open_cr(CPU);
    write_by(CPU, 4, CR, STRT | SER | SNB(1));         answer(DONE, 0);
    cut(BOOT_FLASH);
    expect_bytes(MAIN_FLASH, 0x100, bytes, 2);
    expect(MAIN_FLASH, 0x102, 1, 0x12);
    expect_bytes(MAIN_FLASH, 0x4000, lent[SCRAP].bytes, 0x4000);
    run(0, "cut: three times in a job");
}

static void registers(void)
{
    lend_part(4);
    new_open_job(ERRIE);
    write_by(CPU, 4, ACR, 5);             answer(DONE, 0);
    write_by(CPU, 1, MAIN_START, 0);      answer(FLAG_RAISED, PGSERR);
    open_optcr(CPU);
    write_by(CPU, 4, OPTCR, 0x00005500);  answer(DONE, 0);
    write_by(CPU, 4, CR, EOPIE | STRT | SER | SNB(1));  answer(DONE, 0);
    cut(BOOT_FLASH);
    read_by(CPU, 4, ACR);                 answer(DONE, 0);
    read_by(CPU, 4, OPTCR);               answer(DONE, 0x0FFFAAED);
    write_by(CPU, 4, CR, PG);             answer(LOCKED, 0);
    write_by(CPU, 4, OPTCR, 0x00005500);  answer(LOCKED, 0);
    open_cr(CPU);
    write_by(CPU, 4, CR, PG);             answer(DONE, 0);
    expect_bytes(MAIN_FLASH, 0x4000, lent[SCRAP].bytes, 0x4000);
    run(0, "cut: the registers behind it");
}

/* Level 1: what is left of sector 1 is clean code's to read. */
static void mark(enum boot boot, uint8_t code, uint64_t value)
{
    lend_part(4);
    put(OPTIONS, RDP, 1, 0x55);
    new_open_job(STRT | SER | SNB(1));
    cut(boot);
    read_by(CPU, 1, MAIN_START + 0x4000);  answer(code, value);
    expect_bytes(MAIN_FLASH, 0x4000, lent[SCRAP].bytes, 0x4000);
    run(0, "cut: the mark after boot %u", (unsigned)boot);
}

static void mark_by_debugger(void)
{
    lend_part(4);
    put(OPTIONS, RDP, 1, 0x55);
    new_open_job(STRT | SER | SNB(1));
    debugger_on();                              answer(DONE, 0);
    cut(BOOT_FLASH);
    read_by(DEBUGGER, 1, MAIN_START + 0x4000);  answer(CLOSED, 0);
    debugger_off();                             answer(DONE, 0);
    read_by(CPU, 1, MAIN_START + 0x4000);       answer(CLOSED, 0);
    expect_bytes(MAIN_FLASH, 0x4000, lent[SCRAP].bytes, 0x4000);
    run(0, "cut: the mark under a debugger");
}

/* As any reset without a debugger, a cut takes away the mark it finds. */
static void mark_taken_away(void)
{
    lend_part(4);
    put(OPTIONS, RDP, 1, 0x55);
    new_open_job(STRT | SER | SNB(1));
    debugger_on();                         answer(DONE, 0);
    debugger_off();                        answer(DONE, 0);
    cut(BOOT_FLASH);
    read_by(CPU, 1, MAIN_START + 0x4000);  answer(DONE, 0xFE);
    expect_bytes(MAIN_FLASH, 0x4000, lent[SCRAP].bytes, 0x4000);
    run(0, "cut: the mark taken away");
}

void cut_cases(void)
{
    erases();
    programs();
    lock_byte(0x00, FLAG_RAISED, WRPERR, 0);
    lock_byte(0x01, DONE, 0, 1100);
    one_scrap_for_all();
    registers();
    mark(BOOT_FLASH, DONE, 0xFE);
    mark(BOOT_SYSTEM, CLOSED, 0);
    mark(BOOT_RAM, CLOSED, 0);
    mark_by_debugger();
    mark_taken_away();
}
