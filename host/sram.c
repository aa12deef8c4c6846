/*
 * The backup SRAM: what is stored and read there, what closes it, that nothing
 * else concerns it, and what its bytes outlast.
 */
#include "bench.h"
#include "calls.h"
#include "cases.h"

#define SRAM_END (SRAM_START + FLASH_SRAM_LENGTH)

static const uint8_t widths[4] = {1, 2, 4, 8};

static const char *const names[2] = {"the CPU", "a debugger"};

/* A job with power in which this one has access. */
static void new_job_by(enum who who)
{
    new_job();
    reset(BOOT_FLASH);  answer(DONE, 0);
    if (who == DEBUGGER) {
        debugger_on();  answer(DONE, 0);
    }
}

/* Stored and read ------------------------------------------------------ */

static void stored(enum who who, unsigned i, uint32_t offset)
{
    static const uint64_t values[4] = {0x88, 0x9788, 0xB5A69788,
                                       0xF1E2D3C4B5A69788};
    static const uint8_t bytes[8] = {0x88, 0x97, 0xA6, 0xB5,
                                     0xC4, 0xD3, 0xE2, 0xF1};

    lend_part(4);
    new_job_by(who);
    write_by(who, widths[i], SRAM_START + offset, values[i]);  answer(DONE, 0);
    read_by(who, widths[i], SRAM_START + offset);  answer(DONE, values[i]);
    read_by(who, 4, SR);                           answer(DONE, 0);
    expect_bytes(SRAM, offset, bytes, widths[i]);
    run(0, "SRAM: %u bytes at %lX by %s", widths[i], (unsigned long)offset,
        names[who]);
}

/* At the start and the end, aligned, and across a row of 16. */
static void stored_everywhere(enum who who)
{
    static const uint32_t offsets[] = {0, 1, 2, 3, 4, 5, 6, 7, 8, 0xB, 0xF,
                                       0x7FD};
    unsigned i, j;

    for (i = 0; i < 4; i++) {
        for (j = 0; j < sizeof offsets / sizeof offsets[0]; j++)
            stored(who, i, offsets[j]);
        stored(who, i, FLASH_SRAM_LENGTH - widths[i]);
    }
}

static uint64_t lent_value(uint32_t offset, unsigned width)
{
    uint64_t value = 0;

    while (width-- > 0)
        value = value << 8 | sram_pattern(offset + width);
    return value;
}

static void reads(enum who who)
{
    uint32_t offset;
    unsigned i;

    lend_part(4);
    new_job_by(who);
    for (i = 0; i < 4; i++)
        for (offset = 0; offset + widths[i] <= FLASH_SRAM_LENGTH;
             offset += offset < 20 || offset > 4070 ? 1 : 53) {
            read_by(who, widths[i], SRAM_START + offset);
            answer(DONE, lent_value(offset, widths[i]));
        }
    run(0, "SRAM: reads by %s", names[who]);
}

/* Neither programmed, which clears bits alone, nor erased. */
static void replaced(void)
{
    lend_part(4);
    put(SRAM, 0x20, 1, 0xF0);
    put(SRAM, 0x21, 1, 0x00);
    new_job_by(CPU);
    write_by(CPU, 1, SRAM_START + 0x20, 0x3C);  answer(DONE, 0);
    write_by(CPU, 1, SRAM_START + 0x21, 0xFF);  answer(DONE, 0);
    read_by(CPU, 2, SRAM_START + 0x20);         answer(DONE, 0xFF3C);
    expect(SRAM, 0x20, 1, 0x3C);
    expect(SRAM, 0x21, 1, 0xFF);
    run(0, "SRAM: bytes replaced");
}

/* One byte outside is enough, on either side. */
static void outside(enum who who)
{
    unsigned i;

    lend_part(4);
    new_job_by(who);
    for (i = 0; i < 4; i++) {
        const uint32_t addresses[5] = {
            SRAM_START - 1, SRAM_START - widths[i], SRAM_END - widths[i] + 1,
            SRAM_END, SRAM_END + FLASH_SRAM_LENGTH,
        };
        unsigned j;

        for (j = 0; j < 5; j++) {
            read_by(who, widths[i], addresses[j]);      answer(OUTSIDE_MAP, 0);
            write_by(who, widths[i], addresses[j], 0);  answer(OUTSIDE_MAP, 0);
        }
    }
    run(0, "SRAM: over its ends, by %s", names[who]);
}

/* From behind OPTCR to the SRAM there is nothing. */
static void gap(void)
{
    static const uint32_t addresses[] = {0x40023C18, 0x40023C1C, 0x40023C20,
                                         0x40023E00, 0x40023FF8};
    unsigned i, j;

    lend_part(4);
    new_job_by(CPU);
    for (i = 0; i < 4; i++)
        for (j = 0; j < sizeof addresses / sizeof addresses[0]; j++) {
            read_by(CPU, widths[i], addresses[j]);      answer(OUTSIDE_MAP, 0);
            write_by(CPU, widths[i], addresses[j], 0);  answer(OUTSIDE_MAP, 0);
        }
    run(0, "SRAM: between the registers and its start");
}

/* A locked CR, PG clear, PSIZE 0, every sector protected, a row crossed. */
static void no_rule_of_cells(void)
{
    static const uint8_t bytes[8] = {8, 7, 6, 5, 4, 3, 2, 1};

    lend_part(4);
    put(OPTIONS, NWRP, 2, 0x00);
    put(OTP, FLASH_OTP_LOCKS_AT, 16, 0x00);
    new_job_by(CPU);
    write_by(CPU, 8, SRAM_START + 0xC, 0x0102030405060708);  answer(DONE, 0);
    read_by(CPU, 4, SR);                      answer(DONE, 0);
    open_cr(CPU);
    write_by(CPU, 4, CR, PG | EOPIE | ERRIE); answer(DONE, 0);
    write_by(CPU, 2, SRAM_START + 0x1F, 0);   answer(DONE, 0);
    wait_ms(0);                               answer(DONE, 0);
    read_by(CPU, 4, SR);                      answer(DONE, 0);
    expect_bytes(SRAM, 0xC, bytes, 8);
    expect(SRAM, 0x1F, 2, 0x00);
    run(0, "SRAM: no lock, flag, row, width or protection counts");
}

/* Flags that stand already stay as they are. */
static void standing_flags(void)
{
    lend_part(4);
    new_job_by(CPU);
    write_by(CPU, 1, MAIN_START, 0);     answer(FLAG_RAISED, PGSERR);
    write_by(CPU, 1, SRAM_START, 0xFF);  answer(DONE, 0);
    read_by(CPU, 1, SRAM_START);         answer(DONE, 0xFF);
    read_by(CPU, 4, SR);                 answer(DONE, PGSERR);
    expect(SRAM, 0, 1, 0xFF);
    run(0, "SRAM: flags that stand");
}

/* Closed --------------------------------------------------------------- */

/* The order 10, 15, 7, 13, each before all that come later. */
static void order_of_refusals(void)
{
    lend_part(4);
    put(OPTIONS, RDP, 1, 0x55);
    new_job();
    write_by(DEBUGGER, 2, SRAM_END - 1, 0);  answer(NO_POWER, 0);
    read_by(CPU, 1, SRAM_START);             answer(NO_POWER, 0);
    reset(BOOT_RAM);                         answer(DONE, 0);
    write_by(DEBUGGER, 2, SRAM_END - 1, 0);  answer(NOT_CONNECTED, 0);
    read_by(DEBUGGER, 1, SRAM_START);        answer(NOT_CONNECTED, 0);
    write_by(CPU, 2, SRAM_END - 1, 0);       answer(OUTSIDE_MAP, 0);
    read_by(CPU, 8, SRAM_START - 1);         answer(OUTSIDE_MAP, 0);
    closed_sram(CPU);
    run(0, "SRAM: the order of refusals");
}

static void malformed(uint8_t width, uint64_t value)
{
    lend_part(4);
    new_job_by(CPU);
    write_by(CPU, 1, SRAM_START, 0xFF);          answer(DONE, 0);
    write_by(CPU, width, SRAM_START, value);     answer(DONE, 0);
    run(5, "SRAM: width %u with %lX", width, (unsigned long)value);
}

/* No flag rises, and no OPERR, though ERRIE asks for it. */
static void closed_at_level_1(uint8_t rdp, enum boot boot)
{
    lend_part(4);
    put(OPTIONS, RDP, 1, rdp);
    new_job();
    reset(boot);                             answer(DONE, 0);
    open_cr(CPU);
    write_by(CPU, 4, CR, PG | ERRIE);        answer(DONE, 0);
    closed_sram(CPU);
    read_by(CPU, 4, SR);                     answer(DONE, 0);
    debugger_on();                           answer(DONE, 0);
    closed_sram(DEBUGGER);
    debugger_off();                          answer(DONE, 0);
    closed_sram(CPU);
    read_by(CPU, 4, SR);                     answer(DONE, 0);
    reset(BOOT_FLASH);                       answer(DONE, 0);
    read_by(CPU, 4, SRAM_START + 4);         answer(DONE, 0x08070605);
    write_by(CPU, 1, SRAM_START + 0xFFF, 0); answer(DONE, 0);
    expect(SRAM, 0xFFF, 1, 0x00);
    run(0, "SRAM: closed with RDP %02X after boot %u", rdp, (unsigned)boot);
}

/* At level 0 the mark closes nothing, also where level 1 is pending. */
static void open_at_level_0(enum boot boot)
{
    lend_part(4);
    new_job();
    reset(boot);                               answer(DONE, 0);
    debugger_on();                             answer(DONE, 0);
    open_optcr(DEBUGGER);
    write_by(DEBUGGER, 4, OPTCR, 0x0FFF55EC);  answer(DONE, 0);
    read_by(DEBUGGER, 4, SRAM_START + 0x800);  answer(DONE, 0x7C7B7A79);
    write_by(DEBUGGER, 1, SRAM_START, 0xEE);   answer(DONE, 0);
    read_by(CPU, 2, SRAM_START);               answer(DONE, 0x02EE);
    expect(SRAM, 0, 1, 0xEE);
    run(0, "SRAM: open at level 0 after boot %u", (unsigned)boot);
}

/* Clean code at level 2 has the SRAM; under the mark nobody does. */
static void level_2(void)
{
    lend_part(4);
    put(OPTIONS, RDP, 1, 0x55);
    new_debugger_job(0x0FFFCCEE);
    closed_sram(DEBUGGER);
    wait_ms(2);                                answer(DONE, 1600);
    closed_sram(CPU);
    read_by(DEBUGGER, 1, SRAM_START);          answer(NOT_CONNECTED, 0);
    read_by(CPU, 4, SR);                       answer(DONE, 0);
    reset(BOOT_FLASH);                         answer(DONE, 0);
    read_by(CPU, 4, SRAM_START);               answer(DONE, 0x04030201);
    write_by(CPU, 2, SRAM_START + 1, 0xA1A0);  answer(DONE, 0);
    read_by(CPU, 4, SRAM_START);               answer(DONE, 0x04A1A001);
    expect(OPTIONS, RDP, 1, 0xCC);
    expect(SRAM, 1, 1, 0xA0);
    expect(SRAM, 2, 1, 0xA1);
    run(0, "SRAM: level 2");
}

/* While an operation runs ---------------------------------------------- */

/* Both go on where cells are stalled. */
static void beside(enum who who)
{
    static const uint8_t bytes[4] = {0x44, 0x33, 0x22, 0x11};

    read_by(who, 1, MAIN_START);                       answer(STALLED, 0);
    read_by(who, 2, SRAM_START + 0x102);               answer(DONE, 0x1312);
    write_by(who, 4, SRAM_START + 0x102, 0x11223344);  answer(DONE, 0);
    read_by(who, 8, SRAM_START + 0x100);
    answer(DONE, 0x1716112233441110);
    read_by(who, 4, SR);                               answer(DONE, BSY);
    expect_bytes(SRAM, 0x102, bytes, 4);
}

static void while_programming(enum who who, enum buffer which,
                              uint32_t start)
{
    lend_part(4);
    new_job_by(who);
    open_cr(who);
    write_by(who, 4, CR, PG | ERRIE);  answer(DONE, 0);
    write_by(who, 1, start + 9, 0);    answer(DONE, 0);
    beside(who);
    wait_ms(2);                        answer(DONE, 1100);
    expect(which, 9, 1, 0x00);
    run(0, "SRAM: while %s is programmed, by %s", lent[which].name, names[who]);
}

static void while_erasing(enum who who, uint32_t fields, uint32_t us,
                          size_t from, size_t count)
{
    lend_part(4);
    new_job_by(who);
    open_cr(who);
    write_by(who, 4, CR, fields | STRT);  answer(DONE, 0);
    beside(who);
    wait_ms(2);                           answer(DONE, us);
    expect(MAIN_FLASH, from, count, 0xFF);
    run(0, "SRAM: while CR's %lX erases, by %s", (unsigned long)fields,
        names[who]);
}

/* RDP AA at level 0 is no regression: the bytes stay. */
static void while_options_change(enum who who, uint8_t rdp)
{
    uint32_t fields = 0x0FFF00EC | (uint32_t)rdp << 8;

    lend_part(4);
    new_job_by(who);
    open_optcr(who);
    write_by(who, 4, OPTCR, fields | 2);  answer(DONE, 0);    /* OPTSTRT */
    beside(who);
    wait_ms(2);                           answer(DONE, 1600);
    expect(OPTIONS, RDP, 1, rdp);
    run(0, "SRAM: while options change to RDP %02X, by %s", rdp, names[who]);
}

static void while_busy(enum who who)
{
    while_programming(who, MAIN_FLASH, MAIN_START);
    while_programming(who, OTP, OTP_START);
    while_erasing(who, SER | SNB(1), 1200, 0x4000, 0x4000);
    while_erasing(who, MER, 1500, 0, 65536);
    while_options_change(who, 0xAA);
    while_options_change(who, 0x55);
    while_options_change(who, 0xCC);
}

/* Closed is closed, busy or not: 13, and never 11. */
static void closed_while_busy(void)
{
    lend_part(4);
    put(OPTIONS, RDP, 1, 0x55);
    new_open_job(PG);
    write_by(CPU, 1, MAIN_START + 9, 0);  answer(DONE, 0);
    debugger_on();                        answer(DONE, 0);
    closed_sram(CPU);
    closed_sram(DEBUGGER);
    read_by(CPU, 4, SR);                  answer(DONE, BSY);
    wait_ms(2);                           answer(DONE, 1100);
    expect(MAIN_FLASH, 9, 1, 0x00);
    run(0, "SRAM: closed while busy");
}

/* What the bytes outlast ----------------------------------------------- */

static void resets(enum boot boot)
{
    lend_part(4);
    new_job_by(CPU);
    write_by(CPU, 8, SRAM_START + 0xFF8, 0);  answer(DONE, 0);
    reset(boot);                              answer(DONE, 0);
    read_by(CPU, 8, SRAM_START + 0xFF8);      answer(DONE, 0);
    read_by(CPU, 4, SRAM_START);              answer(DONE, 0x04030201);
    expect(SRAM, 0xFF8, 8, 0x00);
    run(0, "SRAM: kept over boot %u", (unsigned)boot);

    new_job();
    read_by(CPU, 8, SRAM_START + 0xFF7);      answer(NO_POWER, 0);
    reset(BOOT_FLASH);                        answer(DONE, 0);
    read_by(CPU, 8, SRAM_START + 0xFF7);      answer(DONE, 0xE8);
    run(0, "SRAM: kept for the next job");
}

/* A regression of 3100 microseconds, begun by clean code. */
static void new_regressing_job(void)
{
    lend_part(4);
    put(OPTIONS, RDP, 1, 0x55);
    new_job_by(CPU);
    open_optcr(CPU);
    write_by(CPU, 4, OPTCR, 0x0FFFAAEE);         answer(DONE, 0);
    beside(CPU);
    write_by(CPU, 4, SRAM_START, 0xAABBCCDD);    answer(DONE, 0);
    write_by(CPU, 1, SRAM_START + 0xFFF, 0x5C);  answer(DONE, 0);
}

/* Old and written bytes stand up to the last microsecond, and then none do. */
static void regression(void)
{
    new_regressing_job();
    pass_us(3099);                               answer(DONE, 0);
    read_by(CPU, 4, SRAM_START);                 answer(DONE, 0xAABBCCDD);
    read_by(CPU, 4, SRAM_START + 4);             answer(DONE, 0x08070605);
    read_by(CPU, 2, SRAM_START + 0xFFE);         answer(DONE, 0x5CEF);
    read_by(CPU, 4, SR);                         answer(DONE, BSY);
    pass_us(1);                                  answer(DONE, 0);
    read_by(CPU, 8, SRAM_START);                 answer(DONE, 0);
    read_by(CPU, 8, SRAM_START + 0x7FD);         answer(DONE, 0);
    read_by(CPU, 8, SRAM_START + 0xFF8);         answer(DONE, 0);
    read_by(CPU, 4, MAIN_START);                 answer(DONE, 0xFFFFFFFF);
    write_by(CPU, 1, SRAM_START + 0x10, 0x77);   answer(DONE, 0);
    expect_regressed();
    expect(SRAM, 0x10, 1, 0x77);
    run(0, "SRAM: zeroed by a regression");
}

/* In its first phase a cut keeps what was written beside the regression. */
static void regression_cut_first(void)
{
    static const uint8_t bytes[4] = {0xDD, 0xCC, 0xBB, 0xAA};

    new_regressing_job();
    pass_us(1499);                               answer(DONE, 0);
    cut(BOOT_FLASH);
    read_by(CPU, 4, SRAM_START);                 answer(DONE, 0xAABBCCDD);
    read_by(CPU, 4, SRAM_START + 0xFFC);         answer(DONE, 0x5CEFEEED);
    expect_bytes(MAIN_FLASH, 0, lent[SCRAP].bytes, 65536);
    expect_bytes(SRAM, 0, bytes, 4);
    expect(SRAM, 0xFFF, 1, 0x5C);
    run(0, "SRAM: kept by a regression cut in its first phase");
}

/* In its second phase it leaves zeros, even if the level stays 1. */
static void regression_cut_second(void)
{
    new_regressing_job();
    put(SCRAP, RDP, 1, 0x00);
    pass_us(1500);                               answer(DONE, 0);
    read_by(CPU, 4, SRAM_START);                 answer(DONE, 0xAABBCCDD);
    cut(BOOT_FLASH);
    read_by(CPU, 8, SRAM_START);                 answer(DONE, 0);
    read_by(CPU, 8, SRAM_START + 0xFF8);         answer(DONE, 0);
    expect_regressed();
    expect(OPTIONS, RDP, 1, 0x55);
    run(0, "SRAM: zeroed by a regression cut in its second phase");
}

/* A debugger gets it closed up to the end, and zeros afterwards. */
static void regression_by_debugger(void)
{
    lend_part(4);
    put(OPTIONS, RDP, 1, 0x55);
    new_debugger_job(0x0FFFAAEE);
    pass_us(3099);                               answer(DONE, 0);
    closed_sram(DEBUGGER);
    wait_ms(1);                                  answer(DONE, 1);
    read_by(DEBUGGER, 8, SRAM_START + 0xFF8);    answer(DONE, 0);
    write_by(DEBUGGER, 4, SRAM_START, 0x01020304);  answer(DONE, 0);
    read_by(DEBUGGER, 1, SRAM_START + 3);        answer(DONE, 0x01);
    write_by(DEBUGGER, 8, SRAM_START, 0xFF);     answer(DONE, 0);
    expect_regressed();
    expect(SRAM, 0, 1, 0xFF);
    run(0, "SRAM: a regression by a debugger");
}

void sram_cases(void)
{
    static const uint8_t level_1[] = {0x00, 0x55, 0xAB, 0xCD, 0xFF};
    unsigned i, who, boot;

    for (who = CPU; who <= DEBUGGER; who++) {
        stored_everywhere((enum who)who);
        reads((enum who)who);
        outside((enum who)who);
        while_busy((enum who)who);
    }
    replaced();
    gap();
    no_rule_of_cells();
    standing_flags();
    order_of_refusals();
    malformed(3, 0);
    malformed(1, 0x100);
    malformed(4, 0x100000000);
    for (i = 0; i < sizeof level_1; i++) {
        closed_at_level_1(level_1[i], BOOT_SYSTEM);
        closed_at_level_1(level_1[i], BOOT_RAM);
    }
    for (boot = BOOT_FLASH; boot <= BOOT_RAM; boot++) {
        open_at_level_0((enum boot)boot);
        resets((enum boot)boot);
    }
    level_2();
    closed_while_busy();
    regression();
    regression_cut_first();
    regression_cut_second();
    regression_by_debugger();
}
