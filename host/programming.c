/* Programming main flash and OTP: every cell when the job is over. */
#include "bench.h"
#include "calls.h"
#include "cases.h"

/* Main flash: each byte becomes old AND written ------------------------ */

static void program_byte(void)
{
    lend_part(4);
    put(MAIN_FLASH, 0x100, 1, 0xF0);
    new_open_job(PG | PSIZE(0));
    write_by(CPU, 1, MAIN_START + 0x100, 0x3C);  answer(DONE, 0);
    wait_ms(2);                                  answer(DONE, 1100);
    read_by(CPU, 1, MAIN_START + 0x100);         answer(DONE, 0x30);
    expect(MAIN_FLASH, 0x100, 1, 0x30);
    run(0, "F0 programmed with 3C");
}

/* Unaligned, but within its row. */
static void program_half_word(void)
{
    static const uint8_t old[2] = {0xF0, 0x0F}, new[2] = {0x30, 0x0C};

    lend_part(4);
    put_bytes(MAIN_FLASH, 0x400D, old, 2);
    new_open_job(PG | PSIZE(1));
    write_by(CPU, 2, MAIN_START + 0x400D, 0x3C3C);  answer(DONE, 0);
    wait_ms(3);                                     answer(DONE, 2100);
    read_by(CPU, 2, MAIN_START + 0x400D);           answer(DONE, 0x0C30);
    expect_bytes(MAIN_FLASH, 0x400D, new, 2);
    run(0, "half-word programmed");
}

static void program_word(void)
{
    static const uint8_t old[4] = {0xFF, 0x0F, 0xF0, 0xAA};
    static const uint8_t new[4] = {0xCC, 0x03, 0xA0, 0x00};

    lend_part(4);
    put_bytes(MAIN_FLASH, 0x8200, old, 4);
    new_open_job(PG | PSIZE(2));
    write_by(CPU, 4, 0x08008200, 0x55AA33CC);  answer(DONE, 0);
    wait_ms(4);                                answer(DONE, 3100);
    read_by(CPU, 4, 0x08008200);               answer(DONE, 0x00A003CC);
    expect_bytes(MAIN_FLASH, 0x8200, new, 4);
    run(0, "word programmed");
}

/* The last eight bytes of the largest part. */
static void program_double_word(void)
{
    static const uint8_t new[8] = {0xEF, 0xCD, 0xAB, 0x89,
                                   0x67, 0x45, 0x23, 0x01};

    lend_part(12);
    put(MAIN_FLASH, 0xFFFF8, 8, 0xFF);
    new_open_job(PG | PSIZE(3));
    write_by(CPU, 8, 0x080FFFF8, 0x0123456789ABCDEF);  answer(DONE, 0);
    wait_ms(5);                                        answer(DONE, 4100);
    read_by(CPU, 8, 0x080FFFF8);  answer(DONE, 0x0123456789ABCDEF);
    expect_bytes(MAIN_FLASH, 0xFFFF8, new, 8);
    run(0, "double word programmed");
}

/* No flag lets a cell change. Sector 1 is protected. */
static void program_refused(void)
{
    lend_part(4);
    put(OPTIONS, NWRP, 1, 0xFD);
    new_job();
    reset(BOOT_FLASH);                        answer(DONE, 0);
    write_by(CPU, 1, MAIN_START + 0x10, 0);   answer(FLAG_RAISED, PGSERR);
    open_cr(CPU);
    write_by(CPU, 4, CR, PG | PSIZE(1));      answer(DONE, 0);
    write_by(CPU, 2, MAIN_START + 0x1F, 0);   answer(FLAG_RAISED, PGAERR);
    write_by(CPU, 1, MAIN_START + 0x1F, 0);   answer(FLAG_RAISED, PGPERR);
    write_by(CPU, 2, MAIN_START + 0x4000, 0); answer(FLAG_RAISED, WRPERR);
    write_by(CPU, 2, MAIN_START + 0x7FFE, 0); answer(FLAG_RAISED, WRPERR);
    write_by(CPU, 2, SYSTEM_START, 0);        answer(FLAG_RAISED, WRPERR);
    write_by(CPU, 2, OPTIONS_START, 0);       answer(FLAG_RAISED, WRPERR);
    wait_ms(120000);                          answer(DONE, 0);
    read_by(CPU, 4, SR);                      answer(DONE, 0xF0);
    run(0, "programming refused by each flag");
}

/* The sectors beside the protected one are not protected. */
static void program_beside_protected(void)
{
    lend_part(4);
    put(OPTIONS, NWRP, 1, 0xFD);
    new_open_job(PG);
    write_by(CPU, 1, MAIN_START + 0x3FFF, 0);  answer(DONE, 0);
    wait_ms(2);                                answer(DONE, 1100);
    write_by(CPU, 1, MAIN_START + 0x8000, 0);  answer(DONE, 0);
    wait_ms(2);                                answer(DONE, 1100);
    expect(MAIN_FLASH, 0x3FFF, 1, 0x00);
    expect(MAIN_FLASH, 0x8000, 1, 0x00);
    run(0, "programming on both sides of a protected sector");
}

/* OTP ------------------------------------------------------------------ */

/* Block 3 is locked by its lock byte; blocks 2 and 4 stay open. */
static void otp_block_locked(void)
{
    lend_part(4);
    put(OTP, FLASH_OTP_LOCKS_AT + 3, 1, 0x0F);
    new_open_job(PG);
    write_by(CPU, 1, OTP_START + 0x60, 0x3C);  answer(DONE, 0);
    wait_ms(2);                                answer(DONE, 1100);
    write_by(CPU, 1, OTP_LOCKS + 3, 0xF0);     answer(DONE, 0);
    wait_ms(2);                                answer(DONE, 1100);
    write_by(CPU, 1, OTP_START + 0x60, 0x00);  answer(FLAG_RAISED, WRPERR);
    write_by(CPU, 1, OTP_START + 0x7F, 0x00);  answer(FLAG_RAISED, WRPERR);
    write_by(CPU, 1, OTP_START + 0x5F, 0x12);  answer(DONE, 0);
    wait_ms(2);                                answer(DONE, 1100);
    write_by(CPU, 1, OTP_START + 0x80, 0x34);  answer(DONE, 0);
    wait_ms(2);                                answer(DONE, 1100);
    expect(OTP, 0x60, 1, 0x3C);
    expect(OTP, FLASH_OTP_LOCKS_AT + 3, 1, 0x00);
    expect(OTP, 0x5F, 1, 0x12);
    expect(OTP, 0x80, 1, 0x34);
    run(0, "OTP block 3 programmed and locked");
}

/* Locked only by 00; the lock bytes themselves are in no block. */
static void otp_half_locked(void)
{
    lend_part(4);
    put(OTP, FLASH_OTP_LOCKS_AT, 16, 0x00);
    put(OTP, FLASH_OTP_LOCKS_AT + 15, 1, 0x80);
    new_open_job(PG);
    write_by(CPU, 1, OTP_START + 0x1FF, 0x77);  answer(DONE, 0);
    wait_ms(2);                                 answer(DONE, 1100);
    write_by(CPU, 1, OTP_START + 0x1DF, 0x77);  answer(FLAG_RAISED, WRPERR);
    write_by(CPU, 1, OTP_LOCKS + 15, 0x7F);     answer(DONE, 0);
    wait_ms(2);                                 answer(DONE, 1100);
    write_by(CPU, 1, OTP_START + 0x1FF, 0x00);  answer(FLAG_RAISED, WRPERR);
    expect(OTP, 0x1FF, 1, 0x77);
    expect(OTP, FLASH_OTP_LOCKS_AT + 15, 1, 0x00);
    run(0, "OTP lock byte 80, then 00");
}

void programming_cases(void)
{
    program_byte();
    program_half_word();
    program_word();
    program_double_word();
    program_refused();
    program_beside_protected();
    otp_block_locked();
    otp_half_locked();
}
