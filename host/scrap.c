/*
 * The scrap's length: just enough for what is running, refusal 21 where a byte
 * is missing, and any length where nothing runs.
 */
#include "bench.h"
#include "calls.h"
#include "cases.h"

/* What start_operation starts: where it is, and how long. */
static const size_t starts[6] = {0x10, 0xC000, 0x10000, 0x20000, 0, 0};
static const size_t lengths[6] = {1, 0x4000, 0x10000, 0x20000, 0x40000, 16};

static size_t target_length(unsigned row, unsigned column)
{
    return column == FLASH_TIMING_PROGRAM ? (size_t)1 << row : lengths[column];
}

static void new_busy_job(unsigned row, unsigned column, size_t length)
{
    lend_part(6);
    put(SCRAP, 0, length, 0x00);
    lend(SCRAP, length);
    new_job();
    reset(BOOT_FLASH);  answer(DONE, 0);
    open_cr(CPU);
    start_operation(row, column);
    pass_us(1000);      answer(DONE, 0);
}

/* 00 leaves option cells old, and everything else 00. */
static void just_enough(unsigned row, unsigned column)
{
    size_t length = target_length(row, column);

    new_busy_job(row, column, length);
    cut(BOOT_FLASH);
    if (column == FLASH_TIMING_OPTION)
        expect(OPTIONS, RDP, 1, 0xAA);
    else
        expect(MAIN_FLASH, starts[column], length, 0x00);
    run(0, "scrap: just enough for PSIZE %u, column %u", row, column);
}

/* No boot resets the part, and the operation ends in its time. */
static void too_short(unsigned row, unsigned column)
{
    new_busy_job(row, column, target_length(row, column) - 1);
    reset(BOOT_FLASH);    answer(SHORT_SCRAP, 0);
    reset(BOOT_SYSTEM);   answer(SHORT_SCRAP, 0);
    reset(BOOT_RAM);      answer(SHORT_SCRAP, 0);
    read_by(CPU, 4, SR);  answer(DONE, BSY);
    wait_ms(120000);      answer(DONE, 1000 * row + 100 * (column + 1));
    reset(BOOT_FLASH);    answer(DONE, 0);
    run(0, "scrap: a byte short for PSIZE %u, column %u", row, column);
}

static void operations(void)
{
    unsigned row, column;

    for (row = 0; row < FLASH_TIMING_ROWS; row++) {
        for (column = 0; column < FLASH_TIMING_COLUMNS; column++) {
            just_enough(row, column);
            too_short(row, column);
        }
    }
}

static void otp(size_t length, uint8_t code)
{
    lend_part(4);
    put(SCRAP, 0, 4, 0xFF);
    lend(SCRAP, length);
    new_open_job(PG | PSIZE(2));
    write_by(CPU, 4, OTP_START + 4, 0x12345678);  answer(DONE, 0);
    reset(BOOT_FLASH);                            answer(code, 0);
    read_by(CPU, 4, SR);  answer(DONE, code == DONE ? 0 : BSY);
    run(0, "scrap: %lu bytes for four of OTP", (unsigned long)length);
}

/* As many bytes as main flash has, and from the second phase on 16. */
static void regression(uint32_t passed, size_t length, uint8_t code)
{
    lend_part(1);
    put(OPTIONS, RDP, 1, 0x55);
    put(SCRAP, 0, length, 0x00);
    lend(SCRAP, length);
    new_job();
    reset(BOOT_FLASH);                    answer(DONE, 0);
    open_optcr(CPU);
    write_by(CPU, 4, OPTCR, 0x0FFFAAEE);  answer(DONE, 0);
    pass_us(passed);                      answer(DONE, 0);
    reset(BOOT_FLASH);                    answer(code, 0);
    wait_ms(4);  answer(DONE, code == DONE ? 0 : 3100 - passed);
    if (code == SHORT_SCRAP) {
        expect_regressed();
    } else if (length == 16) {
        expect_regressed();
        expect(OPTIONS, RDP, 1, 0x55);
    } else {
        expect(MAIN_FLASH, 0, 16384, 0x00);
    }
    run(0, "scrap: %lu bytes for a regression after %lu microseconds",
        (unsigned long)length, (unsigned long)passed);
}

/* With nothing running no byte of it counts. */
static void at_rest(size_t length)
{
    lend_part(4);
    put(SCRAP, 0, length, 0x00);
    lend(SCRAP, length);
    changing_job();
    reset(BOOT_RAM);    answer(DONE, 0);
    reset(BOOT_FLASH);  answer(DONE, 0);
    expect(MAIN_FLASH, 0x10, 1, 0x00);
    run(0, "scrap: %lu bytes for a part at rest", (unsigned long)length);
}

static void null_at_rest(void)
{
    lend_part(4);
    lend_null(SCRAP);
    changing_job();
    reset(BOOT_FLASH);  answer(DONE, 0);
    expect(MAIN_FLASH, 0x10, 1, 0x00);
    run(0, "scrap: null pointer for a part at rest");
}

static void null_while_busy(void)
{
    lend_part(4);
    lend_null(SCRAP);
    new_open_job(PG);
    write_by(CPU, 1, MAIN_START + 0x10, 0);  answer(DONE, 0);
    reset(BOOT_FLASH);                       answer(SHORT_SCRAP, 0);
    wait_ms(2);                              answer(DONE, 1100);
    expect(MAIN_FLASH, 0x10, 1, 0x00);
    run(0, "scrap: null pointer while busy");
}

/* 21 is no reset: registers, locks and flags stay, and no mark is set. */
static void nothing_changes(void)
{
    uint32_t fields = EOPIE | ERRIE | SER | SNB(1);

    lend_part(4);
    put(OPTIONS, RDP, 1, 0x55);
    lend(SCRAP, 0x3FFF);
    new_open_job(ERRIE);
    write_by(CPU, 4, ACR, 5);             answer(DONE, 0);
    write_by(CPU, 1, MAIN_START, 0);      answer(FLAG_RAISED, PGSERR);
    write_by(CPU, 4, CR, fields | STRT);  answer(DONE, 0);
    reset(BOOT_SYSTEM);                   answer(SHORT_SCRAP, 0);
    read_by(CPU, 4, ACR);                 answer(DONE, 5);
    read_by(CPU, 4, SR);                  answer(DONE, BSY | PGSERR | OPERR);
    read_by(CPU, 4, CR);                  answer(DONE, fields | STRT);
    wait_ms(2);                           answer(DONE, 1200);
    read_by(CPU, 4, SR);                  answer(DONE, PGSERR | OPERR | EOP);
    read_by(CPU, 1, MAIN_START + 9);      answer(DONE, 9);
    write_by(CPU, 4, CR, fields);         answer(DONE, 0);
    expect(MAIN_FLASH, 0x4000, 0x4000, 0xFF);
    run(0, "scrap: nothing changes with 21");
}

/* The mark that stands goes on standing, and so does the debugger. */
static void mark_stays(void)
{
    lend_part(4);
    put(OPTIONS, RDP, 1, 0x55);
    lend(SCRAP, 0x3FFF);
    new_open_job(STRT | SER | SNB(1));
    debugger_on();                    answer(DONE, 0);
    reset(BOOT_FLASH);                answer(SHORT_SCRAP, 0);
    read_by(DEBUGGER, 4, SR);         answer(DONE, BSY);
    debugger_off();                   answer(DONE, 0);
    reset(BOOT_FLASH);                answer(SHORT_SCRAP, 0);
    closed_sram(CPU);
    wait_ms(2);                       answer(DONE, 1200);
    read_by(CPU, 1, MAIN_START + 9);  answer(CLOSED, 0);
    expect(MAIN_FLASH, 0x4000, 0x4000, 0xFF);
    run(0, "scrap: the mark stays with 21");
}

/* 16 comes first, with too little scrap and with enough, and cuts nothing. */
static void level_2(size_t length, uint8_t code)
{
    lend_part(4);
    put(OPTIONS, RDP, 1, 0xCC);
    lend(SCRAP, length);
    new_open_job(STRT | SER | SNB(1));
    reset(BOOT_SYSTEM);               answer(LEVEL_2, 0);
    reset(BOOT_RAM);                  answer(LEVEL_2, 0);
    read_by(CPU, 4, SR);              answer(DONE, BSY);
    reset(BOOT_FLASH);                answer(code, 0);
    wait_ms(2);                       answer(DONE, code == DONE ? 0 : 1200);
    read_by(CPU, 1, MAIN_START + 9);  answer(DONE, 9);
    if (code == DONE)
        expect_bytes(MAIN_FLASH, 0x4000, lent[SCRAP].bytes, 0x4000);
    else
        expect(MAIN_FLASH, 0x4000, 0x4000, 0xFF);
    run(0, "scrap: %lu bytes at level 2", (unsigned long)length);
}

void scrap_cases(void)
{
    static const size_t any[] = {0, 1, 15, 16, 65535, 65536, 65537, 1310720};
    unsigned i;

    operations();
    otp(4, DONE);
    otp(3, SHORT_SCRAP);
    regression(1499, 16384, DONE);
    regression(1499, 16383, SHORT_SCRAP);
    regression(1499, 16, SHORT_SCRAP);
    regression(1500, 16, DONE);
    regression(1500, 15, SHORT_SCRAP);
    for (i = 0; i < sizeof any / sizeof any[0]; i++)
        at_rest(any[i]);
    null_at_rest();
    null_while_busy();
    nothing_changes();
    mark_stays();
    level_2(0x4000, DONE);
    level_2(0x3FFF, SHORT_SCRAP);
    level_2(0, SHORT_SCRAP);
}
