/*
 * Two parts that differ in main flash and SRAM alone, at a level that protects
 * both, and equal scrap. The same job must get the same answers from both and
 * leave the same option cells and OTP, except for what clean code reads: both
 * parts are held to the same written expectations. Clean is code that runs
 * after a boot from flash with no debugger connected at that reset or since.
 */
#include "bench.h"
#include "calls.h"
#include "cases.h"

static void lend_secret(uint8_t rdp, unsigned part)
{
    size_t i;

    lend_part(4);
    put(OPTIONS, RDP, 1, rdp);
    put(OTP, 0, 512, 0x5A);
    if (part == 0)
        return;
    for (i = 0; i < 65536; i++)
        put(MAIN_FLASH, i, 1, pattern(i) ^ 0xA5);
    for (i = 0; i < FLASH_SRAM_LENGTH; i++)
        put(SRAM, i, 1, sram_pattern(i) ^ 0xA5);
}

/* Main flash, OTP and SRAM are closed, the last to writes as well. */
static void closed_accesses(enum who who)
{
    read_by(who, 1, MAIN_START);           answer(CLOSED, 0);
    read_by(who, 2, MAIN_START + 0x4001);  answer(CLOSED, 0);
    read_by(who, 4, MAIN_START + 0x8002);  answer(CLOSED, 0);
    read_by(who, 8, MAIN_START + 0xFFF8);  answer(CLOSED, 0);
    read_by(who, 1, OTP_START);            answer(CLOSED, 0);
    read_by(who, 1, OTP_LOCKS + 15);       answer(CLOSED, 0);
    read_by(who, 8, OTP_START - 4);        answer(CLOSED, 0);
    read_by(who, 8, OTP_START - 8);        answer(DONE, 0xFFFFFFFFFFFFFFFF);
    fetch(MAIN_START);                     answer(CLOSED, 0);
    fetch(MAIN_START + 0xFFFD);            answer(OUTSIDE_MAP, 0);
    closed_sram(who);
}

/* Each flag by a write to main flash, none of which changes it. */
static void refused_programs(enum who who)
{
    write_by(who, 1, MAIN_START + 1, 0);    answer(FLAG_RAISED, PGSERR);
    open_cr(who);
    write_by(who, 4, CR, PG | ERRIE);       answer(DONE, 0);
    write_by(who, 2, MAIN_START + 0xF, 0);  answer(FLAG_RAISED, PGAERR);
    write_by(who, 2, MAIN_START + 1, 0);    answer(FLAG_RAISED, PGPERR);
    write_by(who, 1, MAIN_START + 1, 0);    answer(FLAG_RAISED, WRPERR);
    write_by(who, 1, OTP_START, 0);         answer(FLAG_RAISED, WRPERR);
    read_by(who, 4, SR);                    answer(DONE, 0xF2);
}

static void refused_erases(enum who who)
{
    write_by(who, 4, CR, STRT);                 answer(FLAG_RAISED, PGSERR);
    write_by(who, 4, CR, STRT | SER | SNB(0));  answer(FLAG_RAISED, WRPERR);
    write_by(who, 4, CR, STRT | SER | SNB(9));  answer(FLAG_RAISED, WRPERR);
    write_by(who, 4, CR, STRT | MER);           answer(FLAG_RAISED, WRPERR);
    read_by(who, 4, CR);                        answer(DONE, MER);
    wait_ms(120000);                            answer(DONE, 0);
}

/* A debugger at level 1, and the CPU once it has left. */
static void debugger_tries(uint8_t rdp)
{
    new_job();
    reset(BOOT_FLASH);                        answer(DONE, 0);
    debugger_on();                            answer(DONE, 0);
    closed_accesses(DEBUGGER);
    closed_accesses(CPU);
    refused_programs(DEBUGGER);
    refused_erases(DEBUGGER);
    read_by(DEBUGGER, 1, OPTIONS_START + RDP);  answer(DONE, rdp);
    debugger_off();                           answer(DONE, 0);
    read_by(DEBUGGER, 1, MAIN_START);         answer(NOT_CONNECTED, 0);
    closed_accesses(CPU);
}

/* Boots from system memory and RAM, and a reset under a debugger. */
static void boot_tries(uint8_t rdp)
{
    (void)rdp;
    new_job();
    reset(BOOT_SYSTEM);  answer(DONE, 0);
    closed_accesses(CPU);
    refused_programs(CPU);
    reset(BOOT_RAM);     answer(DONE, 0);
    closed_accesses(CPU);
    refused_programs(CPU);
    refused_erases(CPU);
    debugger_on();       answer(DONE, 0);
    reset(BOOT_FLASH);   answer(DONE, 0);
    closed_accesses(CPU);
    closed_accesses(DEBUGGER);
    debugger_off();      answer(DONE, 0);
    closed_accesses(CPU);
}

/* After a regression there is nothing left to hide. */
static void regression_by_debugger(uint8_t rdp)
{
    (void)rdp;
    new_job();
    reset(BOOT_FLASH);                         answer(DONE, 0);
    debugger_on();                             answer(DONE, 0);
    closed_accesses(DEBUGGER);
    open_optcr(DEBUGGER);
    write_by(DEBUGGER, 4, OPTCR, 0x0FFFAAEE);  answer(DONE, 0);
    read_by(DEBUGGER, 1, MAIN_START);          answer(STALLED, 0);
    wait_ms(3);                                answer(WAIT_EXPIRED, 3000);
    read_by(DEBUGGER, 4, SR);                  answer(DONE, BSY);
    wait_ms(1);                                answer(DONE, 100);
    read_by(DEBUGGER, 4, MAIN_START);          answer(DONE, 0xFFFFFFFF);
    read_by(DEBUGGER, 4, MAIN_START + 0xFFFC); answer(DONE, 0xFFFFFFFF);
    read_by(DEBUGGER, 1, OTP_START);           answer(DONE, 0x5A);
    read_by(DEBUGGER, 8, SRAM_START);          answer(DONE, 0);
    read_by(DEBUGGER, 8, SRAM_START + 0xFF8);  answer(DONE, 0);
    expect_regressed();
}

/* The mark goes on closing at level 2 when the debugger is shut out. */
static void level_2_by_debugger(uint8_t rdp)
{
    (void)rdp;
    new_debugger_job(0x0FFFCCEE);
    closed_sram(DEBUGGER);
    wait_ms(2);                                answer(DONE, 1600);
    closed_accesses(CPU);
    expect(OPTIONS, RDP, 1, 0xCC);
}

/* RDP AA that is only pending opens nothing, nor does a start that is cut. */
static void pending_regression(uint8_t rdp)
{
    new_debugger_job(0x0FFFAAEC);
    closed_accesses(DEBUGGER);
    read_by(DEBUGGER, 1, OPTIONS_START + RDP);   answer(DONE, rdp);
    write_by(DEBUGGER, 1, OPTCR, 0xEE);        answer(DONE, 0);
    reset(BOOT_FLASH);                         answer(DONE, 0);
    closed_accesses(DEBUGGER);
    read_by(DEBUGGER, 1, OPTIONS_START + RDP);   answer(DONE, rdp);
    expect_bytes(MAIN_FLASH, 0, lent[SCRAP].bytes, 65536);
}

/* What clean code had begun, cut by a boot outside main flash. */
static void erase_cut(uint8_t rdp)
{
    (void)rdp;
    new_open_job(STRT | SER | SNB(1));
    reset(BOOT_SYSTEM);                    answer(DONE, 0);
    closed_accesses(CPU);
    refused_programs(CPU);
    reset(BOOT_FLASH);                     answer(DONE, 0);
    read_by(CPU, 4, MAIN_START + 0x4000);  answer(DONE, 0xFBFCFDFE);
    expect_bytes(MAIN_FLASH, 0x4000, lent[SCRAP].bytes, 0x4000);
}

/* The same under a debugger: old bits that the scrap keeps stay hidden. */
static void program_cut(uint8_t rdp)
{
    (void)rdp;
    put(SCRAP, 0, 1, 0x0F);
    new_open_job(PG);
    write_by(CPU, 1, MAIN_START + 9, 0);  answer(DONE, 0);
    debugger_on();                        answer(DONE, 0);
    reset(BOOT_FLASH);                    answer(DONE, 0);
    closed_accesses(DEBUGGER);
    closed_accesses(CPU);
    expect(MAIN_FLASH, 9, 1, lent[MAIN_FLASH].bytes[9] & 0x0F);
}

/* A debugger cuts its regression in the last microsecond of either phase. */
static void regression_cut(uint32_t passed, uint8_t scrap_of_rdp)
{
    put(SCRAP, RDP, 1, scrap_of_rdp);
    new_debugger_job(0x0FFFAAEE);
    pass_us(passed);    answer(DONE, 0);
    reset(BOOT_FLASH);  answer(DONE, 0);
}

static void regression_cut_first(uint8_t rdp)
{
    regression_cut(1499, 2);
    closed_accesses(DEBUGGER);
    read_by(DEBUGGER, 1, OPTIONS_START + RDP);  answer(DONE, rdp);
    expect_bytes(MAIN_FLASH, 0, lent[SCRAP].bytes, 65536);
}

/* RDP FF is level 1. */
static void regression_cut_second(uint8_t rdp)
{
    (void)rdp;
    regression_cut(3099, 1);
    closed_accesses(DEBUGGER);
    expect_regressed();
    expect(OPTIONS, RDP, 1, 0xFF);
}

/* RDP AA is level 0, and both parts show the same. */
static void regression_cut_open(uint8_t rdp)
{
    (void)rdp;
    regression_cut(3099, 2);
    read_by(DEBUGGER, 4, MAIN_START);          answer(DONE, 0xFFFFFFFF);
    read_by(DEBUGGER, 4, MAIN_START + 0xFFFC); answer(DONE, 0xFFFFFFFF);
    read_by(DEBUGGER, 1, OTP_START);           answer(DONE, 0x5A);
    read_by(DEBUGGER, 8, SRAM_START);          answer(DONE, 0);
    expect_regressed();
}

/* Level 2 by a cut closes as it does by a whole change. */
static void level_2_cut(uint8_t rdp)
{
    (void)rdp;
    put(SCRAP, RDP, 1, 2);
    new_debugger_job(0x0FFFCCEE);
    reset(BOOT_FLASH);                 answer(DONE, 0);
    closed_accesses(CPU);
    read_by(DEBUGGER, 4, MAIN_START);  answer(NOT_CONNECTED, 0);
    expect(OPTIONS, RDP, 1, 0xCC);
}

static void both_parts(void (*job)(uint8_t), uint8_t rdp, const char *title)
{
    unsigned part;

    for (part = 0; part < 2; part++) {
        lend_secret(rdp, part);
        job(rdp);
        run(0, "RDP %02X, part %u: %s", rdp, part, title);
    }
}

/* Level 2 refuses the intruder before it can ask. */
static void level_2_tries(uint8_t rdp)
{
    (void)rdp;
    new_job();
    reset(BOOT_RAM);                       answer(LEVEL_2, 0);
    reset(BOOT_SYSTEM);                    answer(LEVEL_2, 0);
    reset(BOOT_FLASH);                     answer(DONE, 0);
    debugger_on();                         answer(LEVEL_2, 0);
    read_by(DEBUGGER, 4, MAIN_START);      answer(NOT_CONNECTED, 0);
    read_by(DEBUGGER, 4, SRAM_START);      answer(NOT_CONNECTED, 0);
    write_by(DEBUGGER, 4, SRAM_START, 0);  answer(NOT_CONNECTED, 0);
    open_optcr(CPU);
    write_by(CPU, 4, OPTCR, 0x0FFFAAEE);   answer(FLAG_RAISED, WRPERR);
    read_by(CPU, 2, OPTIONS_START);        answer(CLOSED, 0);
}

/* What clean code reads is the part's own; here alone the values differ. */
static void clean_reads(unsigned part, const char *title, uint64_t word,
                        uint64_t sram_word)
{
    lend_secret(0x55, part);
    new_job();
    reset(BOOT_FLASH);                         answer(DONE, 0);
    read_by(CPU, 4, MAIN_START + 4);           answer(DONE, word);
    fetch(MAIN_START + 4);                     answer(DONE, word);
    read_by(CPU, 8, MAIN_START + 0xFFFC);      answer(OUTSIDE_MAP, 0);
    read_by(CPU, 4, SRAM_START + 0x800);       answer(DONE, sram_word);
    read_by(CPU, 8, SRAM_START + 0xFFC);       answer(OUTSIDE_MAP, 0);
    debugger_on();                             answer(DONE, 0);
    closed_accesses(CPU);
    debugger_off();                            answer(DONE, 0);
    closed_accesses(CPU);
    reset(BOOT_FLASH);                         answer(DONE, 0);
    read_by(CPU, 4, MAIN_START + 4);           answer(DONE, word);
    read_by(CPU, 4, SRAM_START + 0x800);       answer(DONE, sram_word);
    write_by(CPU, 4, SRAM_START + 0x800, 0);   answer(DONE, 0);
    read_by(CPU, 4, SRAM_START + 0x800);       answer(DONE, 0);
    expect(SRAM, 0x800, 4, 0x00);
    run(0, "clean reads of %s", title);
}

void secrecy_cases(void)
{
    static const uint8_t level_1[] = {0x00, 0x55, 0xAB, 0xCD, 0xFF};
    unsigned i;

    for (i = 0; i < sizeof level_1; i++) {
        both_parts(debugger_tries, level_1[i], "a debugger's attempts");
        both_parts(boot_tries, level_1[i], "boots outside main flash");
        both_parts(regression_by_debugger, level_1[i], "regression");
        both_parts(pending_regression, level_1[i], "pending regression");
        both_parts(level_2_by_debugger, level_1[i], "change to level 2");
        both_parts(erase_cut, level_1[i], "an erase cut");
        both_parts(program_cut, level_1[i], "a program operation cut");
        both_parts(regression_cut_first, level_1[i], "first phase cut");
        both_parts(regression_cut_second, level_1[i], "second phase cut");
        both_parts(regression_cut_open, level_1[i], "level 0 by a cut");
        both_parts(level_2_cut, level_1[i], "level 2 by a cut");
    }
    both_parts(level_2_tries, 0xCC, "attempts at level 2");
    clean_reads(0, "part 0", 0x07060504, 0x7C7B7A79);
    clean_reads(1, "part 1", 0xA2A3A0A1, 0xD9DEDFDC);
}
