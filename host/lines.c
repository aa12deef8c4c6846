/*
 * Data lines and instruction lines: which rows they hold, what reads and
 * fetches get from them when the cells have changed, and what empties them.
 * Where the uncached part gives another value, both are written down.
 *
 * The part has one sector with 11 in each byte. A line shows that it is held
 * when the sector has been erased: it gives 11, where the cells are FF.
 */
#include "bench.h"
#include "calls.h"
#include "cases.h"

#define BOTH_ON (DCEN | ICEN)
#define OLD     0x11111111u
#define BLANK   0xFFFFFFFFu

enum side { DATA, INSTRUCTIONS };

static const char *const side_names[2] = {"data", "instruction"};
static const uint32_t enable[2] = {DCEN, ICEN};
static const uint32_t reset_bit[2] = {DCRST, ICRST};

static uint32_t row(unsigned index)
{
    return MAIN_START + 16 * (uint32_t)index;
}

static void set_acr(uint32_t value)
{
    write_by(CPU, 4, ACR, value);  answer(DONE, 0);
}

/* A job with an open CR and these bits in ACR, on the part of this file. */
static void new_line_job(uint32_t acr)
{
    lend_part(1);
    put(MAIN_FLASH, 0, 0x4000, 0x11);
    new_open_job(0);
    set_acr(acr);
}

static void erase(void)
{
    write_by(CPU, 4, CR, STRT | SER | SNB(0));  answer(DONE, 0);
    wait_ms(2);                                 answer(DONE, 1200);
    expect(MAIN_FLASH, 0, 0x4000, 0xFF);
}

static void program(uint32_t offset, uint8_t byte, uint8_t left)
{
    write_by(CPU, 4, CR, PG);                      answer(DONE, 0);
    write_by(CPU, 1, MAIN_START + offset, byte);   answer(DONE, 0);
    wait_ms(2);                                    answer(DONE, 1100);
    expect(MAIN_FLASH, offset, 1, left);
}

/* Four bytes through the lines of that side. */
static void take(enum side side, uint32_t address)
{
    if (side == DATA)
        read_by(CPU, 4, address);
    else
        fetch(address);
}

static void take_rows(enum side side, unsigned first, unsigned last)
{
    unsigned i;

    for (i = first; i <= last; i++) {
        take(side, row(i));  answer(DONE, OLD);
    }
}

/* After the erase. */
static void held(enum side side, unsigned index)
{
    take(side, row(index));  answer_old(OLD, BLANK);
}

static void not_held(enum side side, unsigned index)
{
    take(side, row(index));  answer(DONE, BLANK);
}

/* Lines that are held -------------------------------------------------- */

static void widths(void)
{
    new_line_job(BOTH_ON);
    take_rows(DATA, 0, 1);
    take_rows(INSTRUCTIONS, 0, 1);
    erase();
    read_by(CPU, 1, row(0) + 15);  answer_old(0x11, 0xFF);
    read_by(CPU, 2, row(0) + 3);   answer_old(0x1111, 0xFFFF);
    read_by(CPU, 4, row(1) + 12);  answer_old(OLD, BLANK);
    read_by(CPU, 8, row(1) + 1);
    answer_old(0x1111111111111111, 0xFFFFFFFFFFFFFFFF);
    read_by(CPU, 8, row(1) - 1);
    answer_old(0x1111111111111111, 0xFFFFFFFFFFFFFFFF);
    read_by(CPU, 8, row(2) - 3);
    answer_old(0xFFFFFFFFFF111111, 0xFFFFFFFFFFFFFFFF);
    fetch(row(1) - 2);             answer_old(OLD, BLANK);
    fetch(row(2) - 1);             answer_old(0xFFFFFF11, BLANK);
    fetch(row(2) - 3);             answer_old(0xFF111111, BLANK);
    run(0, "lines: every width, in one line and over two");
}

/* A read fills no instruction line, a fetch no data line. */
static void sides_apart(enum side side)
{
    enum side other = side == DATA ? INSTRUCTIONS : DATA;

    new_line_job(BOTH_ON);
    take_rows(side, 3, 3);
    erase();
    not_held(other, 3);
    held(side, 3);
    run(0, "lines: a %s line alone", side_names[side]);
}

/* At level 0 a debugger and the CPU have the same data lines. */
static void debuggers_reads(void)
{
    new_line_job(BOTH_ON);
    take_rows(DATA, 6, 6);
    take_rows(INSTRUCTIONS, 6, 6);
    debugger_on();                  answer(DONE, 0);
    read_by(DEBUGGER, 1, row(5));   answer(DONE, 0x11);
    erase();
    held(DATA, 5);
    read_by(DEBUGGER, 2, row(6));   answer_old(0x1111, 0xFFFF);
    debugger_off();                 answer(DONE, 0);
    held(DATA, 6);
    held(INSTRUCTIONS, 6);
    run(0, "lines: a debugger's reads");
}

/* The first of them stays if it is used again, and the second goes. */
static void replaced(enum side side, unsigned lines)
{
    unsigned i;

    new_line_job(BOTH_ON);
    take_rows(side, 0, lines - 1);
    take_rows(side, 0, 0);
    take_rows(side, lines, lines);
    erase();
    held(side, 0);
    for (i = lines; i > 1; i--)
        held(side, i);
    not_held(side, 1);
    not_held(side, 0);
    for (i = 2; i < lines; i++)
        held(side, i);
    run(0, "lines: row %u of the %s side", lines + 1, side_names[side]);
}

static void as_many_as_lines(enum side side, unsigned lines)
{
    unsigned i;

    new_line_job(BOTH_ON);
    take_rows(side, 0, lines - 1);
    erase();
    for (i = 0; i < lines; i++)
        held(side, i);
    not_held(side, lines);
    not_held(side, 0);
    run(0, "lines: %u rows of the %s side", lines, side_names[side]);
}

/*
 * Rows 1 and on fill all lines. Over the end of row 0, its fill drops row 1,
 * whose own fill then drops row 2.
 */
static void upper_pushed_out(enum side side, unsigned lines)
{
    unsigned i;

    new_line_job(BOTH_ON);
    take_rows(side, 1, lines);
    erase();
    take(side, row(1) - 2);  answer(DONE, BLANK);
    for (i = 3; i <= lines; i++)
        held(side, i);
    not_held(side, 2);
    run(0, "lines: a %s line pushed out by the one below it",
        side_names[side]);
}

/* Lower, then upper: of the two the lower goes first. */
static void lower_used_first(enum side side, unsigned lines)
{
    new_line_job(BOTH_ON);
    take(side, row(1) - 2);  answer(DONE, OLD);
    take_rows(side, 2, lines);
    erase();
    held(side, 1);
    not_held(side, 0);
    run(0, "lines: the %s line below goes first", side_names[side]);
}

/* Sides that are off --------------------------------------------------- */

static void kept_while_off(enum side side)
{
    new_line_job(BOTH_ON);
    take_rows(side, 0, 0);
    erase();
    set_acr(BOTH_ON & ~enable[side]);
    not_held(side, 0);
    not_held(side, 1);
    set_acr(BOTH_ON);
    held(side, 0);
    run(0, "lines: the %s side off and on again", side_names[side]);
}

static void not_filled_while_off(enum side side)
{
    new_line_job(BOTH_ON & ~enable[side]);
    take_rows(side, 0, 0);
    erase();
    set_acr(BOTH_ON);
    not_held(side, 0);
    run(0, "lines: the %s side off fills none", side_names[side]);
}

/* Row 0 is asked for with the side off, and goes next all the same. */
static void not_used_while_off(enum side side, unsigned lines)
{
    new_line_job(BOTH_ON);
    take_rows(side, 0, lines - 1);
    set_acr(0);
    take_rows(side, 0, 0);
    set_acr(BOTH_ON);
    take_rows(side, lines, lines);
    erase();
    held(side, 1);
    not_held(side, 0);
    run(0, "lines: the %s side off counts no use", side_names[side]);
}

/* Programs ------------------------------------------------------------- */

/* 11 programmed with F3 is 11; with FE it is 10. */
static void programmed(uint32_t acr)
{
    new_line_job(BOTH_ON);
    take_rows(DATA, 0, 0);
    take_rows(INSTRUCTIONS, 0, 0);
    set_acr(acr);
    program(1, 0xFE, 0x10);
    program(2, 0xF3, 0x11);
    set_acr(BOTH_ON);
    read_by(CPU, 4, row(0));  answer(DONE, 0x11111011);
    fetch(row(0));            answer_old(OLD, 0x11111011);
    run(0, "lines: a row programmed with ACR %lX", (unsigned long)acr);
}

/* The bytes written follow the cells, changed or not; the others stay. */
static void programmed_after_erase(uint32_t acr)
{
    new_line_job(BOTH_ON);
    take_rows(DATA, 0, 0);
    take_rows(INSTRUCTIONS, 0, 0);
    erase();
    set_acr(acr);
    program(1, 0x3C, 0x3C);
    program(2, 0xFF, 0xFF);
    set_acr(BOTH_ON);
    read_by(CPU, 4, row(0));  answer_old(0x11FF3C11, 0xFFFF3CFF);
    fetch(row(0));            answer_old(OLD, 0xFFFF3CFF);
    run(0, "lines: a row erased, then programmed with ACR %lX",
        (unsigned long)acr);
}

/* Eight bytes of the line at once, by a pass. */
static void programmed_wide(void)
{
    new_line_job(BOTH_ON);
    take_rows(DATA, 1, 1);
    write_by(CPU, 4, CR, PG | PSIZE(3));                answer(DONE, 0);
    write_by(CPU, 8, row(1) + 8, 0x0011223344556677);   answer(DONE, 0);
    pass_us(4099);                                      answer(DONE, 0);
    read_by(CPU, 1, row(1));                            answer(STALLED, 0);
    pass_us(1);                                         answer(DONE, 0);
    read_by(CPU, 8, row(1) + 8);   answer(DONE, 0x0011001100110011);
    read_by(CPU, 8, row(1) + 4);   answer(DONE, 0x0011001111111111);
    expect(MAIN_FLASH, 24, 8, 0x11);
    expect(MAIN_FLASH, 25, 1, 0x00);
    expect(MAIN_FLASH, 27, 1, 0x00);
    expect(MAIN_FLASH, 29, 1, 0x00);
    expect(MAIN_FLASH, 31, 1, 0x00);
    run(0, "lines: eight bytes programmed");
}

/* Row 0 goes next, though it has been programmed after all others were read. */
static void program_no_use(void)
{
    new_line_job(BOTH_ON);
    take_rows(DATA, 0, 7);
    program(0x0F, 0x00, 0x00);
    take_rows(DATA, 8, 8);
    erase();
    not_held(DATA, 0);
    held(DATA, 2);
    run(0, "lines: a program is no use");
}

/* OTP has no lines, though its offsets are those of main flash. */
static void otp_programmed(void)
{
    new_line_job(BOTH_ON);
    take_rows(DATA, 0, 0);
    write_by(CPU, 4, CR, PG);          answer(DONE, 0);
    write_by(CPU, 1, OTP_START, 0);    answer(DONE, 0);
    wait_ms(2);                        answer(DONE, 1100);
    take_rows(DATA, 0, 0);
    read_by(CPU, 1, OTP_START);        answer(DONE, 0x00);
    expect(OTP, 0, 1, 0x00);
    run(0, "lines: OTP programmed");
}

/* What empties lines, and what does not -------------------------------- */

/* Both sides hold row 0, and the sector has been erased. */
static void new_old_job(void)
{
    new_line_job(BOTH_ON);
    take_rows(DATA, 0, 0);
    take_rows(INSTRUCTIONS, 0, 0);
    erase();
}

/* One write empties the side and switches it on; the other stays on. */
static void emptied(enum side side, uint8_t width, uint32_t lane)
{
    enum side other = side == DATA ? INSTRUCTIONS : DATA;
    uint32_t value = (reset_bit[side] | BOTH_ON) >> (8 * lane);

    new_old_job();
    set_acr(enable[other]);
    write_by(CPU, width, ACR + lane, value);  answer(DONE, 0);
    not_held(side, 0);
    held(other, 0);
    run(0, "lines: the %s side emptied by %u bytes", side_names[side], width);
}

/* The side is switched off by a write that does not empty it. */
static void emptied_again(enum side side)
{
    new_line_job(0);
    set_acr(reset_bit[side]);
    set_acr(reset_bit[side] | BOTH_ON);
    take_rows(side, 0, 0);
    erase();
    set_acr(0);
    read_by(CPU, 4, ACR);  answer(DONE, reset_bit[side]);
    set_acr(reset_bit[side]);
    set_acr(BOTH_ON);
    not_held(side, 0);
    run(0, "lines: the %s side emptied where the bit stands",
        side_names[side]);
}

/*
 * The bit stands at 1 while lines are filled. Other lanes are written, and then
 * the side is switched on with a 0 to it.
 */
static void other_lanes(enum side side)
{
    new_line_job(0);
    set_acr(reset_bit[side]);
    set_acr(reset_bit[side] | BOTH_ON);
    take_rows(side, 0, 0);
    erase();
    write_by(CPU, 1, ACR + 1, 0);         answer(DONE, 0);
    read_by(CPU, 4, ACR);                 answer(DONE, reset_bit[side]);
    write_by(CPU, 1, ACR, 0xFF);          answer(DONE, 0);
    write_by(CPU, 2, ACR + 2, 0xFFFF);    answer(DONE, 0);
    write_by(CPU, 1, ACR + 2, 0x18);      answer(DONE, 0);
    write_by(CPU, 1, ACR + 3, 0x18);      answer(DONE, 0);
    read_by(CPU, 4, ACR);                 answer(DONE, reset_bit[side] | 7);
    set_acr(BOTH_ON);
    held(side, 0);
    run(0, "lines: the %s side kept, other lanes written", side_names[side]);
}

/* Not taken since the side is on before the write, be it off after it. */
static void kept_while_on(enum side side)
{
    new_old_job();
    set_acr(reset_bit[side] | BOTH_ON);
    held(side, 0);
    set_acr(reset_bit[side]);
    set_acr(BOTH_ON);
    held(side, 0);
    run(0, "lines: the %s side kept while on", side_names[side]);
}

static void emptied_by_reset(enum boot boot)
{
    new_old_job();
    reset(boot);    answer(DONE, 0);
    set_acr(BOTH_ON);
    not_held(DATA, 0);
    not_held(INSTRUCTIONS, 0);
    run(0, "lines: emptied by boot %u", (unsigned)boot);
}

/* Scrap of FF keeps the byte of OTP. */
static void emptied_by_cut(void)
{
    new_old_job();
    put(SCRAP, 0, 1, 0xFF);
    write_by(CPU, 4, CR, PG);        answer(DONE, 0);
    write_by(CPU, 1, OTP_START, 0);  answer(DONE, 0);
    reset(BOOT_FLASH);               answer(DONE, 0);
    set_acr(BOTH_ON);
    not_held(DATA, 0);
    not_held(INSTRUCTIONS, 0);
    run(0, "lines: emptied by a reset that cuts");
}

/* The reset is refused for want of scrap; the erase that runs is another. */
static void kept_by_refused_reset(void)
{
    new_old_job();
    lend(SCRAP, 0);
    write_by(CPU, 4, CR, STRT | MER);  answer(DONE, 0);
    reset(BOOT_FLASH);                 answer(SHORT_SCRAP, 0);
    wait_ms(2);                        answer(DONE, 1500);
    held(DATA, 0);
    held(INSTRUCTIONS, 0);
    run(0, "lines: kept by a reset that is refused");
}

static void kept_at_level_2(void)
{
    new_old_job();
    put(OPTIONS, RDP, 1, 0xCC);
    reset(BOOT_SYSTEM);  answer(LEVEL_2, 0);
    held(DATA, 0);
    held(INSTRUCTIONS, 0);
    run(0, "lines: kept by a reset that level 2 refuses");
}

static void mass_erase(void)
{
    new_line_job(BOTH_ON);
    take_rows(DATA, 0, 0);
    take_rows(INSTRUCTIONS, 0, 0);
    write_by(CPU, 4, CR, STRT | MER);  answer(DONE, 0);
    wait_ms(2);                        answer(DONE, 1500);
    held(DATA, 0);
    held(INSTRUCTIONS, 0);
    expect(MAIN_FLASH, 0, 0x4000, 0xFF);
    run(0, "lines: a mass erase");
}

static void option_change(void)
{
    new_old_job();
    open_optcr(CPU);
    write_by(CPU, 4, OPTCR, 0x0FFF55EE);  answer(DONE, 0);
    wait_ms(2);                           answer(DONE, 1600);
    held(DATA, 0);
    held(INSTRUCTIONS, 0);
    expect(OPTIONS, RDP, 1, 0x55);
    run(0, "lines: an option change");
}

/* 1500 and 1600 microseconds; ACR keeps both sides on. */
static void regression(void)
{
    new_line_job(BOTH_ON);
    put(OPTIONS, RDP, 1, 0x55);
    take_rows(DATA, 0, 0);
    take_rows(INSTRUCTIONS, 0, 0);
    open_optcr(CPU);
    write_by(CPU, 4, OPTCR, 0x0FFFAAEE);  answer(DONE, 0);
    wait_ms(4);                           answer(DONE, 3100);
    not_held(DATA, 0);
    not_held(INSTRUCTIONS, 0);
    read_by(CPU, 4, ACR);                 answer(DONE, BOTH_ON);
    expect_regressed();
    run(0, "lines: emptied by a regression");
}

static void another_job(void)
{
    new_old_job();
    run(0, "lines: held when the job ends");

    new_job();
    reset(BOOT_FLASH);   answer(DONE, 0);
    set_acr(BOTH_ON);
    not_held(DATA, 0);
    not_held(INSTRUCTIONS, 0);
    run(0, "lines: none in the next job");
}

/* Refused accesses ----------------------------------------------------- */

/* Stalled, over the end of main flash, and by nobody: no line is filled. */
static void refused_fill_none(void)
{
    new_line_job(BOTH_ON);
    read_by(CPU, 4, MAIN_START + 0x3FFE);       answer(OUTSIDE_MAP, 0);
    fetch(MAIN_START + 0x3FFE);                 answer(OUTSIDE_MAP, 0);
    read_by(DEBUGGER, 4, row(1));               answer(NOT_CONNECTED, 0);
    write_by(CPU, 4, CR, STRT | SER | SNB(0));  answer(DONE, 0);
    read_by(CPU, 4, row(2));                    answer(STALLED, 0);
    fetch(row(2));                              answer(STALLED, 0);
    wait_ms(2);                                 answer(DONE, 1200);
    read_by(CPU, 4, MAIN_START + 0x3FFC);       answer(DONE, BLANK);
    fetch(MAIN_START + 0x3FFC);                 answer(DONE, BLANK);
    not_held(DATA, 1);
    not_held(DATA, 2);
    not_held(INSTRUCTIONS, 2);
    expect(MAIN_FLASH, 0, 0x4000, 0xFF);
    run(0, "lines: refused accesses fill none");
}

/* Row 0 goes next, though it was asked for. */
static void refused_no_use(enum side side, unsigned lines)
{
    new_line_job(BOTH_ON);
    take_rows(side, 0, lines - 1);
    read_by(DEBUGGER, 4, row(0));    answer(NOT_CONNECTED, 0);
    write_by(CPU, 4, CR, PG);        answer(DONE, 0);
    write_by(CPU, 1, OTP_START, 0);  answer(DONE, 0);
    take(side, row(0));              answer(STALLED, 0);
    wait_ms(2);                      answer(DONE, 1100);
    take_rows(side, lines, lines);
    erase();
    not_held(side, 0);
    held(side, 2);
    expect(OTP, 0, 1, 0x00);
    run(0, "lines: refused accesses use no %s line", side_names[side]);
}

/* The last row of main flash goes next, though bytes of it were asked for. */
static void over_the_end_no_use(enum side side, unsigned lines)
{
    new_line_job(BOTH_ON);
    take_rows(side, 1023, 1023);
    take_rows(side, 0, lines - 2);
    take(side, row(1024) - 2);  answer(OUTSIDE_MAP, 0);
    take_rows(side, lines - 1, lines - 1);
    erase();
    held(side, 0);
    not_held(side, 1023);
    run(0, "lines: no use of a %s line over the end", side_names[side]);
}

/*
 * Level 1, and two parts that differ in main flash: clean code fills the lines
 * before a debugger comes, whom they show nothing, nor the CPU beside it. After
 * a regression both show the same.
 */
static void closed(uint8_t byte, uint64_t word)
{
    new_line_job(BOTH_ON);
    put(OPTIONS, RDP, 1, 0x55);
    put(MAIN_FLASH, 0, 0x4000, byte);
    read_by(CPU, 4, row(0));                   answer(DONE, word);
    fetch(row(0));                             answer(DONE, word);
    erase();
    read_by(CPU, 4, row(0));                   answer_old(word, BLANK);
    fetch(row(0));                             answer_old(word, BLANK);
    debugger_on();                             answer(DONE, 0);
    read_by(DEBUGGER, 4, row(0));              answer(CLOSED, 0);
    read_by(CPU, 1, row(0));                   answer(CLOSED, 0);
    fetch(row(0));                             answer(CLOSED, 0);
    fetch(row(1));                             answer(CLOSED, 0);
    set_acr(0);
    read_by(DEBUGGER, 4, row(0));              answer(CLOSED, 0);
    set_acr(BOTH_ON);
    open_optcr(DEBUGGER);
    write_by(DEBUGGER, 4, OPTCR, 0x0FFFAAEE);  answer(DONE, 0);
    wait_ms(4);                                answer(DONE, 3100);
    read_by(DEBUGGER, 4, row(0));              answer(DONE, BLANK);
    fetch(row(0));                             answer(DONE, BLANK);
    expect_regressed();
    run(0, "lines: of %02X, closed to a debugger", byte);
}

static void each_side(enum side side, unsigned lines)
{
    sides_apart(side);
    as_many_as_lines(side, lines);
    replaced(side, lines);
    upper_pushed_out(side, lines);
    lower_used_first(side, lines);
    kept_while_off(side);
    not_filled_while_off(side);
    not_used_while_off(side, lines);
    emptied(side, 4, 0);
    emptied(side, 2, 0);
    emptied(side, 1, 1);
    emptied_again(side);
    other_lanes(side);
    kept_while_on(side);
    refused_no_use(side, lines);
    over_the_end_no_use(side, lines);
}

void line_cases(void)
{
    unsigned boot;

    widths();
    debuggers_reads();
    each_side(DATA, 8);
    each_side(INSTRUCTIONS, 64);
    programmed(BOTH_ON);
    programmed(0);
    programmed_after_erase(BOTH_ON);
    programmed_after_erase(0);
    programmed_wide();
    program_no_use();
    otp_programmed();
    for (boot = BOOT_FLASH; boot <= BOOT_RAM; boot++)
        emptied_by_reset((enum boot)boot);
    emptied_by_cut();
    kept_by_refused_reset();
    kept_at_level_2();
    mass_erase();
    option_change();
    regression();
    another_job();
    refused_fill_none();
    closed(0x11, 0x11111111);
    closed(0xEE, 0xEEEEEEEE);
}
