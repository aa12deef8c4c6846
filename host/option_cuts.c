/*
 * Option changes and regressions that a reset cuts: what is left in the cells,
 * and the level, debugger and mark behind it.
 */
#include "bench.h"
#include "calls.h"
#include "cases.h"

/* USER, RDP, six unused cells, nWRP, six unused cells. */
static const uint8_t old[16] = {
    0x6F, 0xAA, 0x11, 0x11, 0x11, 0x11, 0x11, 0x11,
    0xF7, 0x3F, 0x22, 0x22, 0x22, 0x22, 0x22, 0x22,
};

/* Scrap that leaves remainder 0, 1, 2 by 3 in turn, from each of them on. */
static const uint8_t scraps[3][16] = {
    {0x00, 0x01, 0x02, 0x03, 0x04, 0x05, 0xFF, 0xFD,
     0xFE, 0x81, 0x7F, 0x80, 0x54, 0x55, 0xAA, 0xAB},
    {0x01, 0x02, 0x03, 0x04, 0x05, 0x06, 0xFD, 0xFE,
     0xFF, 0x82, 0x80, 0x81, 0x55, 0x56, 0xAB, 0xAC},
    {0x02, 0x03, 0x04, 0x05, 0x06, 0x07, 0xFE, 0xFF,
     0xFD, 0x83, 0x81, 0x82, 0x56, 0x57, 0xAC, 0xAD},
};

static void new_changing_job(uint8_t rdp, uint32_t optcr)
{
    lend_part(1);
    put_bytes(OPTIONS, 0, old, 16);
    put(OPTIONS, RDP, 1, rdp);
    new_open_job(EOPIE);
    open_optcr(CPU);
    write_by(CPU, 4, OPTCR, optcr);  answer(DONE, 0);
}

/* Option changes ------------------------------------------------------- */

/* New are USER 5B, RDP 55, nWRP 5F and FA, and FF in the unused cells. */
static void option_change(unsigned turn, uint32_t passed)
{
    static const uint8_t left[3][16] = {
        {0x6F, 0xFF, 0xFF, 0x11, 0xFF, 0xFF, 0x11, 0xFF,
         0x5F, 0x3F, 0xFF, 0xFF, 0x22, 0xFF, 0xFF, 0x22},
        {0xFF, 0x55, 0x11, 0xFF, 0xFF, 0x11, 0xFF, 0xFF,
         0xF7, 0xFF, 0xFF, 0x22, 0xFF, 0xFF, 0x22, 0xFF},
        {0x5B, 0xAA, 0xFF, 0xFF, 0x11, 0xFF, 0xFF, 0x11,
         0xFF, 0xFA, 0x22, 0xFF, 0xFF, 0x22, 0xFF, 0xFF},
    };
    static const uint32_t optcr[3] = {0x0F5FFF6D, 0x0FF755ED, 0x0AFFAA49};

    new_changing_job(0xAA, 0xFA5F555A);
    put_bytes(SCRAP, 0, scraps[turn], 16);
    pass_us(passed);         answer(DONE, 0);
    cut(BOOT_FLASH);
    read_by(CPU, 4, OPTCR);  answer(DONE, optcr[turn]);
    expect_bytes(OPTIONS, 0, left[turn], 16);
    run(0, "cut: option change after %lu microseconds, scrap %02X",
        (unsigned long)passed, scraps[turn][0]);
}

/* Every value of the scrap, for RDP. */
static void every_remainder(unsigned byte)
{
    static const uint8_t left[3] = {0x33, 0xFF, 0x55};

    new_changing_job(0x33, 0x0FF7556E);
    put(SCRAP, 0, FLASH_OPTIONS_LENGTH, 0x00);
    put(SCRAP, RDP, 1, (uint8_t)byte);
    cut(BOOT_FLASH);
    expect(OPTIONS, RDP, 1, left[byte % 3]);
    run(0, "cut: option change, scrap %02X for RDP", byte);
}

/* Regressions ---------------------------------------------------------- */

/* The first phase: main flash is the scrap's, and RDP can't be AA. */
static void expect_first_phase(void)
{
    read_by(CPU, 4, OPTCR);           answer(DONE, 0x0FF7556D);
    read_by(CPU, 2, MAIN_START + 2);  answer(DONE, 0x0202);
    read_by(CPU, 2, SRAM_START);      answer(DONE, 0x0201);
    expect(MAIN_FLASH, 0, 65536, 0x02);
}

/* The second: main flash FF, the SRAM 00, and here RDP is AA. */
static void expect_second_phase(void)
{
    read_by(CPU, 4, OPTCR);           answer(DONE, 0x0FF7AA6D);
    read_by(CPU, 2, MAIN_START + 2);  answer(DONE, 0xFFFF);
    read_by(CPU, 2, SRAM_START);      answer(DONE, 0x0000);
    expect_regressed();
}

/* It is the option time of the regression's own row that divides them. */
static void phase(unsigned row, uint32_t passed, void (*expect_phase)(void))
{
    lend_part(4);
    put_bytes(OPTIONS, 0, old, 16);
    put(OPTIONS, RDP, 1, 0x55);
    put(SCRAP, 0, 65536, 0x02);
    new_open_job(EOPIE | PSIZE(row));
    open_optcr(CPU);
    write_by(CPU, 4, OPTCR, 0x0000AA02);  answer(DONE, 0);
    pass_us(passed);                      answer(DONE, 0);
    cut(BOOT_FLASH);
    expect_phase();
    run(0, "cut: regression with PSIZE %u after %lu microseconds", row,
        (unsigned long)passed);
}

/* A mass erase lasts 1,500 microseconds and 1,000 more for each row. */
static void phases(void)
{
    unsigned row;

    for (row = 0; row < 4; row++) {
        uint32_t mass_erase = 1000 * row + 1500;

        phase(row, 0, expect_first_phase);
        phase(row, mass_erase - 1, expect_first_phase);
        phase(row, mass_erase, expect_second_phase);
        phase(row, mass_erase + 1, expect_second_phase);
        phase(row, mass_erase + 1000 * row + 1599, expect_second_phase);
    }
}

/* All 16 cells are the target, and new is old but for RDP. */
static void second_phase(unsigned turn)
{
    static const uint8_t left[3][16] = {
        {0x6F, 0xFF, 0x11, 0x11, 0xFF, 0x11, 0x11, 0xFF,
         0xF7, 0x3F, 0xFF, 0x22, 0x22, 0xFF, 0x22, 0x22},
        {0xFF, 0xAA, 0x11, 0xFF, 0x11, 0x11, 0xFF, 0x11,
         0xF7, 0xFF, 0x22, 0x22, 0xFF, 0x22, 0x22, 0xFF},
        {0x6F, 0x55, 0xFF, 0x11, 0x11, 0xFF, 0x11, 0x11,
         0xFF, 0x3F, 0x22, 0xFF, 0x22, 0x22, 0xFF, 0x22},
    };
    static const uint32_t optcr[3] = {0x0FF7FF6D, 0x0FF7AAED, 0x0FFF556D};

    new_changing_job(0x55, 0x0000AA02);
    put_bytes(SCRAP, 0, scraps[turn], 16);
    pass_us(2000);           answer(DONE, 0);
    cut(BOOT_FLASH);
    read_by(CPU, 4, OPTCR);  answer(DONE, optcr[turn]);
    expect_regressed();
    expect_bytes(OPTIONS, 0, left[turn], 16);
    run(0, "cut: regression in its second phase, scrap %02X", scraps[turn][0]);
}

/* Levels --------------------------------------------------------------- */

/* A debugger's change of RDP to CC, with that scrap for RDP. */
static void new_cut_job(uint8_t rdp, uint8_t byte)
{
    lend_part(4);
    put(OPTIONS, RDP, 1, rdp);
    put(SCRAP, RDP, 1, byte);
    new_debugger_job(0x0FFFCCEE);
    pass_us(1599);  answer(DONE, 0);
    cut(BOOT_FLASH);
}

/* The mark is set by the debugger that level 2 then shuts out. */
static void debugger_leaves(uint8_t rdp)
{
    new_cut_job(rdp, 0x02);
    read_by(CPU, 4, OPTCR);           answer(DONE, 0x0FFFCCED);
    read_by(DEBUGGER, 4, SR);         answer(NOT_CONNECTED, 0);
    debugger_on();                    answer(LEVEL_2, 0);
    reset(BOOT_SYSTEM);               answer(LEVEL_2, 0);
    read_by(CPU, 1, MAIN_START + 9);  answer(CLOSED, 0);
    closed_sram(CPU);
    reset(BOOT_FLASH);                answer(DONE, 0);
    read_by(CPU, 1, MAIN_START + 9);  answer(DONE, 9);
    read_by(CPU, 1, OPTIONS_START);   answer(CLOSED, 0);
    expect(OPTIONS, RDP, 1, 0xCC);
    run(0, "cut: from RDP %02X to level 2 under a debugger", rdp);
}

/* With FF in RDP it is level 1, and the debugger stays. */
static void debugger_stays(uint8_t rdp)
{
    new_cut_job(rdp, 0x01);
    read_by(DEBUGGER, 4, OPTCR);           answer(DONE, 0x0FFFFFED);
    read_by(DEBUGGER, 1, MAIN_START + 9);  answer(CLOSED, 0);
    debugger_off();                        answer(DONE, 0);
    read_by(CPU, 1, MAIN_START + 9);       answer(CLOSED, 0);
    expect(OPTIONS, RDP, 1, 0xFF);
    run(0, "cut: from RDP %02X to level 1 under a debugger", rdp);
}

static void level_0_kept(void)
{
    new_cut_job(0xAA, 0x00);
    read_by(DEBUGGER, 4, OPTCR);           answer(DONE, 0x0FFFAAED);
    read_by(DEBUGGER, 1, MAIN_START + 9);  answer(DONE, 9);
    run(0, "cut: level 0 kept under a debugger");
}

/* The boot is judged by the level before the cut, and the next by CC. */
static void boot_into_level_2(uint8_t rdp, enum boot boot)
{
    lend_part(4);
    put(OPTIONS, RDP, 1, rdp);
    put(SCRAP, RDP, 1, 0x02);
    new_job();
    reset(BOOT_FLASH);                    answer(DONE, 0);
    open_optcr(CPU);
    write_by(CPU, 4, OPTCR, 0x0FFFCCEE);  answer(DONE, 0);
    cut(boot);
    read_by(CPU, 4, OPTCR);               answer(DONE, 0x0FFFCCED);
    read_by(CPU, 1, MAIN_START + 9);      answer(CLOSED, 0);
    reset(boot);                          answer(LEVEL_2, 0);
    debugger_on();                        answer(LEVEL_2, 0);
    reset(BOOT_FLASH);                    answer(DONE, 0);
    read_by(CPU, 1, MAIN_START + 9);      answer(DONE, 9);
    expect(OPTIONS, RDP, 1, 0xCC);
    run(0, "cut: from RDP %02X to level 2 with boot %u", rdp, (unsigned)boot);
}

/* A regression whose RDP became AA leaves nothing that the mark could hide. */
static void level_0_by_debugger(void)
{
    lend_part(4);
    put(OPTIONS, RDP, 1, 0x55);
    put(SCRAP, RDP, 1, 0x02);
    new_debugger_job(0x0FFFAAEE);
    pass_us(1500);                             answer(DONE, 0);
    cut(BOOT_RAM);
    read_by(DEBUGGER, 4, MAIN_START + 0xFFFC); answer(DONE, 0xFFFFFFFF);
    read_by(DEBUGGER, 8, SRAM_START + 0xFF8);  answer(DONE, 0);
    expect_regressed();
    run(0, "cut: regression to level 0 under a debugger");
}

void option_cut_cases(void)
{
    unsigned turn, byte;

    for (turn = 0; turn < 3; turn++) {
        option_change(turn, 0);
        option_change(turn, 1599);
        second_phase(turn);
    }
    for (byte = 0; byte < 256; byte++)
        every_remainder(byte);
    phases();
    debugger_leaves(0xAA);
    debugger_leaves(0x55);
    debugger_stays(0xAA);
    debugger_stays(0x55);
    level_0_kept();
    boot_into_level_2(0xAA, BOOT_RAM);
    boot_into_level_2(0x55, BOOT_SYSTEM);
    level_0_by_debugger();
}
