/* Option changes, regression and level 2: every cell when the job is over. */
#include "bench.h"
#include "calls.h"
#include "cases.h"

static void put_odd_options(uint8_t rdp)
{
    static const uint8_t odd[16] = {
        0x6F, 0xAA, 0x11, 0x11, 0x11, 0x11, 0x11, 0x11,
        0xF7, 0x5F, 0x22, 0x22, 0x22, 0x22, 0x22, 0x22,
    };
    put_bytes(OPTIONS, 0, odd, 16);
    put(OPTIONS, RDP, 1, rdp);
}

/* Every cell is written anew: FF but for USER, RDP and nWRP. */
static void option_change(void)
{
    lend_part(4);
    put_odd_options(0xAA);
    new_job();
    reset(BOOT_FLASH);                    answer(DONE, 0);
    read_by(CPU, 4, OPTCR);               answer(DONE, 0x0FF7AA6D);
    open_optcr(CPU);
    write_by(CPU, 4, OPTCR, 0xFA5F555A);  answer(DONE, 0);
    wait_ms(2);                           answer(DONE, 1600);
    read_by(CPU, 4, OPTCR);               answer(DONE, 0x0A5F5548);
    expect(OPTIONS, 0, FLASH_OPTIONS_LENGTH, 0xFF);
    expect(OPTIONS, USER, 1, 0x5B);
    expect(OPTIONS, RDP, 1, 0x55);
    expect(OPTIONS, NWRP, 1, 0x5F);
    expect(OPTIONS, NWRP + 1, 1, 0xFA);
    run(0, "option change");
}

/* Main flash, the SRAM and RDP; nothing else, whatever is in OPTCR or nWRP. */
static void regression(void)
{
    lend_part(4);
    put(OTP, 0, 512, 0x5A);
    put_odd_options(0x55);
    new_job();
    reset(BOOT_FLASH);                    answer(DONE, 0);
    read_by(CPU, 4, OPTCR);               answer(DONE, 0x0FF7556D);
    open_optcr(CPU);
    write_by(CPU, 4, OPTCR, 0x0000AA02);  answer(DONE, 0);
    wait_ms(3);                           answer(WAIT_EXPIRED, 3000);
    wait_ms(1);                           answer(DONE, 100);
    read_by(CPU, 4, OPTCR);               answer(DONE, 0x0FF7AA6C);
    expect_regressed();
    run(0, "regression with a protected sector");
}

static void pending_options(void)
{
    lend_part(4);
    new_job();
    reset(BOOT_FLASH);                    answer(DONE, 0);
    open_optcr(CPU);
    write_by(CPU, 4, OPTCR, 0x0000CC00);  answer(DONE, 0);
    debugger_on();                        answer(DONE, 0);
    read_by(DEBUGGER, 1, MAIN_START + 9); answer(DONE, 9);
    open_cr(CPU);
    write_by(CPU, 4, CR, PG);             answer(DONE, 0);
    write_by(CPU, 1, MAIN_START + 9, 8);  answer(DONE, 0);
    wait_ms(2);                           answer(DONE, 1100);
    expect(MAIN_FLASH, 9, 1, 8);
    run(0, "bits that are only pending in OPTCR");
}

/* The debugger that brought level 2 about is shut out with the rest. */
static void level_2(void)
{
    lend_part(4);
    new_debugger_job(0x0FFFCCEE);
    wait_ms(2);                                answer(DONE, 1600);
    read_by(DEBUGGER, 4, SR);                  answer(NOT_CONNECTED, 0);
    debugger_on();                             answer(LEVEL_2, 0);
    reset(BOOT_SYSTEM);                        answer(LEVEL_2, 0);
    write_by(CPU, 4, OPTCR, 0x0FFFAAEE);       answer(FLAG_RAISED, WRPERR);
    read_by(CPU, 2, OPTIONS_START);            answer(CLOSED, 0);
    read_by(CPU, 1, MAIN_START + 9);           answer(CLOSED, 0);
    reset(BOOT_FLASH);                         answer(DONE, 0);
    read_by(CPU, 1, MAIN_START + 9);           answer(DONE, 9);
    read_by(CPU, 2, OPTIONS_START);            answer(CLOSED, 0);
    expect(OPTIONS, RDP, 1, 0xCC);
    run(0, "level 2");
}

void option_cases(void)
{
    option_change();
    regression();
    pending_options();
    level_2();
}
