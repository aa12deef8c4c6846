/*
 * The rehearsal part for station programs in C and C++: a function that runs
 * one job on a part made of the caller's own buffers, a second one that runs it
 * on the same part without lines, and the numbers that their caller needs.
 *
 * The pages are in the repository that the archive comes from: docs/HOSTS.md
 * says how to link and call it, with a whole host in C and one in Rust, and
 * docs/OPERATORS.md what each call does and what its answer means. Registers
 * and flags have their names from PM0059, ST's manual on programming the flash
 * of the STM32F2.
 *
 * Lengths and offsets are in bytes; a name that ends in _AT is an offset. A
 * time has its unit in its name, _US or _MS. Numbers of several bytes lie in
 * the buffers with the lowest byte first.
 */
#ifndef FLASH_JOB_H
#define FLASH_JOB_H

#include <stddef.h>
#include <stdint.h>

/*
 * The part -------------------------------------------------------------------
 *
 * It has n sectors of main flash, n from 1 to 12: 0 to 3 of 16 KiB, 4 of
 * 64 KiB, 5 to 11 of 128 KiB. OTP is 16 blocks of 32 bytes, then a lock byte
 * for each; 00 locks its block. Of the option cells, USER, RDP and nWRP are
 * used; bit i of nWRP at 0 protects sector i. The backup SRAM takes reads and
 * writes of every width, also while an operation is running; both are closed
 * where a read of main flash is, and a regression sets it to 00.
 *
 * A blank part is FF throughout main flash and OTP, FF in the option cells but
 * for RDP, which is FLASH_RDP_LEVEL_0, and 00 in the backup SRAM. Option cells
 * that are all FF are level 1 and not level 0, as with every RDP but the two
 * below.
 */
#define FLASH_MAIN_MAX_SECTORS 12
#define FLASH_MAIN_LENGTH(n)   ((n) <= 4 ? 16384 * (n) : 131072 * ((n) - 4))

#define FLASH_OTP_LENGTH   528
#define FLASH_OTP_LOCKS_AT 512

#define FLASH_OPTIONS_LENGTH  16
#define FLASH_OPTIONS_USER_AT 0
#define FLASH_OPTIONS_RDP_AT  1
#define FLASH_OPTIONS_NWRP_AT 8     /* two bytes */

#define FLASH_RDP_LEVEL_0 0xAA
#define FLASH_RDP_LEVEL_2 0xCC

#define FLASH_SRAM_LENGTH 4096

/* Addresses of calls. System memory reads FF. */
#define FLASH_MAIN_START      0x08000000u
#define FLASH_SYSTEM_START    0x1FFF0000u
#define FLASH_SYSTEM_LENGTH   0x7800
#define FLASH_OTP_START       0x1FFF7800u
#define FLASH_OPTIONS_START   0x1FFFC000u
#define FLASH_REGISTERS_START 0x40023C00u
#define FLASH_SRAM_START      0x40024000u

#define FLASH_ACR     (FLASH_REGISTERS_START + 0x00)
#define FLASH_KEYR    (FLASH_REGISTERS_START + 0x04)
#define FLASH_OPTKEYR (FLASH_REGISTERS_START + 0x08)
#define FLASH_SR      (FLASH_REGISTERS_START + 0x0C)
#define FLASH_CR      (FLASH_REGISTERS_START + 0x10)
#define FLASH_OPTCR   (FLASH_REGISTERS_START + 0x14)

/* Bits of ACR: each side of the lines on, and emptied; see below. */
#define FLASH_DCRST 0x00001000u
#define FLASH_ICRST 0x00000800u
#define FLASH_DCEN  0x00000400u
#define FLASH_ICEN  0x00000200u

/* Bits of SR: an operation is running, the four error flags, OPERR, EOP. */
#define FLASH_BSY    0x00010000u
#define FLASH_PGSERR 0x00000080u
#define FLASH_PGPERR 0x00000040u
#define FLASH_PGAERR 0x00000020u
#define FLASH_WRPERR 0x00000010u
#define FLASH_OPERR  0x00000002u
#define FLASH_EOP    0x00000001u

/*
 * The lines ------------------------------------------------------------------
 *
 * Between the calls and main flash stand 8 data lines and 64 instruction lines.
 * A line holds the bytes of one row of main flash: 16, from an offset that 16
 * divides. Reads of main flash, by CPU and debugger, go through the data lines
 * while FLASH_DCEN is 1, fetches through the instruction lines while FLASH_ICEN
 * is 1: the bytes come from the row's line. Where no line holds the row, one is
 * filled with it first, a free one, or else the one least recently used. An
 * access over two rows takes the lower one first. A side that is off keeps its
 * lines, and its accesses neither use nor fill them.
 *
 * A line is STALE where the cells hold other bytes than it does:
 *
 *   at the end of   data lines               instruction lines
 *   a program       take the written bytes   stay, and may be stale
 *   an erase        stay, and may be stale   stay, and may be stale
 *   a regression    are emptied              are emptied
 *
 * A reset that is done empties both sides. A write to ACR empties the data
 * lines if it has a 1 for FLASH_DCRST and FLASH_DCEN was 0 before, the
 * instruction lines if it has a 1 for FLASH_ICRST and FLASH_ICEN was 0; the same
 * write may switch them on. No answer is stale where both sides are emptied
 * after each erase, and the instruction lines after each program, before the
 * next read or fetch.
 *
 * Lines change the values of reads and fetches of main flash, and nothing else:
 * no code, no register, no cell. Every run starts with none.
 */

/*
 * The time -------------------------------------------------------------------
 *
 * How long each operation lasts, in MICROSECONDS: 24 numbers of 32 bits, a row
 * for each PSIZE and a column for each operation.
 */
#define FLASH_TIMING_ROWS    4
#define FLASH_TIMING_COLUMNS 6
#define FLASH_TIMINGS_LENGTH 96

/* Where the number of that row and column starts. */
#define FLASH_TIMING_AT(row, column) \
    (4 * (FLASH_TIMING_COLUMNS * (row) + (column)))

/* Rows, which are the values of PSIZE. */
#define FLASH_TIMING_X8  0
#define FLASH_TIMING_X16 1
#define FLASH_TIMING_X32 2
#define FLASH_TIMING_X64 3

/* Columns. The erases are those of a sector of that size. */
#define FLASH_TIMING_PROGRAM    0
#define FLASH_TIMING_ERASE_16K  1
#define FLASH_TIMING_ERASE_64K  2
#define FLASH_TIMING_ERASE_128K 3
#define FLASH_TIMING_MASS_ERASE 4
#define FLASH_TIMING_OPTION     5

#define FLASH_TIMING_MIN_US 1
#define FLASH_TIMING_MAX_US 60000000

/*
 * The scrap ------------------------------------------------------------------
 *
 * A reset that is done while an operation is running cuts it. The scrap says
 * what is left in the bytes that the operation was to change, its target: byte
 * i of the target is settled by byte i of the scrap. One buffer, of any length
 * and content, serves all resets of a job.
 *
 *   running                    target          left in each byte
 *   program                    bytes written   old & (written | scrap)
 *   erase of a sector          the sector      scrap
 *   mass erase                 main flash      scrap
 *   option change              option cells    scrap % 3: 0 old, 1 FF, 2 new
 *   regression, first phase    main flash      scrap
 *   regression, second phase   option cells    scrap % 3: 0 old, 1 FF, 2 new
 *
 * A regression is in its first phase while more than its option time is left;
 * option cells and SRAM keep their bytes then. In the second phase main flash
 * is left FF and the SRAM 00, and RDP alone has a new value, FLASH_RDP_LEVEL_0:
 * for the other option cells new is old.
 *
 * If the scrap is shorter than the target, the reset gets
 * FLASH_CODE_SHORT_SCRAP. Where nothing is running no scrap is needed.
 */

/* As long as the longest target on a part with n sectors. */
#define FLASH_SCRAP_LENGTH(n) FLASH_MAIN_LENGTH(n)

/*
 * The job --------------------------------------------------------------------
 *
 *   bytes     head
 *   0 to 2    mark
 *   3, 4      version
 *   5, 6      count of calls, 0 to 2000
 *
 * Then a record of 16 bytes for each call. A job of no calls is its head alone:
 * it runs, gives no answers and changes nothing. job_writer.h declares what
 * writes a job.
 *
 *   bytes     record
 *   0         kind
 *   1         who: the CPU or the debugger
 *   2         width of the access: 1, 2, 4 or 8 bytes
 *   3         0
 *   4 to 7    number: a boot, an address or a time
 *   8 to 15   value: what is written; it has to fit the width
 *
 * What each kind uses of its record; what it doesn't use has to be 0.
 *
 *   kind                      who   width   number         value
 *   FLASH_KIND_RESET          0     0       boot           0
 *   FLASH_KIND_DEBUGGER_ON    0     0       0              0
 *   FLASH_KIND_DEBUGGER_OFF   0     0       0              0
 *   FLASH_KIND_READ           who   width   address        0
 *   FLASH_KIND_WRITE          who   width   address        value
 *   FLASH_KIND_PASS_US        0     0       MICROSECONDS   0
 *   FLASH_KIND_WAIT_MS        0     0       MILLISECONDS   0
 *   FLASH_KIND_FETCH          0     4       address        0
 *
 * A fetch is an instruction fetch by the CPU, of four bytes of main flash at
 * any alignment; a byte of it elsewhere gets FLASH_CODE_OUTSIDE_MAP.
 */
#define FLASH_JOB_MARK        "FJB" /* without the 0 behind it */
#define FLASH_JOB_VERSION     1
#define FLASH_JOB_VERSION_AT  3
#define FLASH_JOB_COUNT_AT    5
#define FLASH_JOB_HEAD_LENGTH 7
#define FLASH_JOB_MAX_CALLS   2000

#define FLASH_RECORD_LENGTH    16
#define FLASH_RECORD_KIND_AT   0
#define FLASH_RECORD_WHO_AT    1
#define FLASH_RECORD_WIDTH_AT  2
#define FLASH_RECORD_ZERO_AT   3
#define FLASH_RECORD_NUMBER_AT 4
#define FLASH_RECORD_VALUE_AT  8

/* Of so many calls; the record of call i, from 0, is at FLASH_JOB_LENGTH(i). */
#define FLASH_JOB_LENGTH(count) \
    (FLASH_JOB_HEAD_LENGTH + FLASH_RECORD_LENGTH * (count))

#define FLASH_KIND_RESET        0
#define FLASH_KIND_DEBUGGER_ON  1
#define FLASH_KIND_DEBUGGER_OFF 2
#define FLASH_KIND_READ         3
#define FLASH_KIND_WRITE        4
#define FLASH_KIND_PASS_US      5
#define FLASH_KIND_WAIT_MS      6
#define FLASH_KIND_FETCH        7

#define FLASH_WHO_CPU      0
#define FLASH_WHO_DEBUGGER 1

#define FLASH_BOOT_FLASH  0
#define FLASH_BOOT_SYSTEM 1
#define FLASH_BOOT_RAM    2

/* The longest times that a call may ask for; 0 is the shortest. */
#define FLASH_PASS_MAX_US 120000000
#define FLASH_WAIT_MAX_MS 120000

/*
 * The answers ----------------------------------------------------------------
 *
 * One of 16 bytes for each call: that of call i, from 0, starts at byte 16 * i.
 *
 *   bytes     answer
 *   0         code
 *   1 to 7    0
 *   8 to 15   value
 *
 * The value of a read or a fetch that is done is its bytes, that of a wait,
 * done or expired, the MICROSECONDS that passed, that of a raised flag its bit
 * in SR: FLASH_PGSERR, FLASH_PGPERR, FLASH_PGAERR or FLASH_WRPERR. All others
 * are 0.
 *
 * Number 19 is for a part that is busy with no time left. No call of a job
 * gets it, since an operation ends with its last microsecond.
 */
#define FLASH_ANSWER_LENGTH   16
#define FLASH_ANSWER_CODE_AT  0
#define FLASH_ANSWER_VALUE_AT 8
#define FLASH_ANSWERS_MAX     32000 /* room for those of any job */

#define FLASH_CODE_DONE             0
#define FLASH_CODE_OUTSIDE_MAP      7   /* a byte of it is at no address */
#define FLASH_CODE_TIME_ABOVE_LIMIT 8   /* no time passed */
#define FLASH_CODE_REGISTER_ACCESS  9   /* unaligned, 8 bytes, a key not of 4 */
#define FLASH_CODE_NO_POWER         10  /* no reset has been done yet */
#define FLASH_CODE_STALLED          11  /* an operation is running */
#define FLASH_CODE_LOCKED           12  /* CR or OPTCR */
#define FLASH_CODE_CLOSED           13  /* read protection; also a write to SRAM */
#define FLASH_CODE_WRONG_KEY        14  /* that lock is closed until a reset */
#define FLASH_CODE_NOT_CONNECTED    15  /* the debugger */
#define FLASH_CODE_LEVEL_2          16  /* no debugger, no other boot */
#define FLASH_CODE_FLAG_RAISED      17  /* an error flag */
#define FLASH_CODE_WAIT_EXPIRED     18  /* the operation goes on */
#define FLASH_CODE_SHORT_SCRAP      21  /* no reset; the operation goes on */

/*
 * The result -----------------------------------------------------------------
 *
 * 0 if the job ran: each call has its answer, which may be a refusal. Else the
 * first refusal of the job that applies, looked for in the order 1, 2, 3, 4, 6,
 * 5; no call has run then, and no byte of any buffer has changed.
 */
#define FLASH_RESULT_RAN          0
#define FLASH_RESULT_WRONG_LENGTH 1 /* of the part's buffers or the timings */
#define FLASH_RESULT_WRONG_TIMING 2 /* one is out of range */
#define FLASH_RESULT_WRONG_MARK   3 /* or version, or below 5 bytes */
#define FLASH_RESULT_WRONG_COUNT  4 /* or length, or below 7 bytes */
#define FLASH_RESULT_MALFORMED    5 /* a record is not as said above */
#define FLASH_RESULT_NO_ROOM      6 /* for the answers */

#ifdef __cplusplus
extern "C" {
#endif

/*
 * Runs the job on the part and writes one answer for each of its calls.
 *
 *   main_flash  FLASH_MAIN_LENGTH(n) bytes, which fixes n; no other length is
 *               taken. Changed as the calls program and erase it.
 *   otp         FLASH_OTP_LENGTH bytes. Changed as the calls program it.
 *   options     FLASH_OPTIONS_LENGTH bytes. Changed by option changes.
 *   sram        FLASH_SRAM_LENGTH bytes, the backup SRAM. Changed as the calls
 *               write it, and set to 00 by a regression.
 *   timings_us  FLASH_TIMINGS_LENGTH bytes. Only read.
 *   scrap       Any number of bytes; FLASH_SCRAP_LENGTH(n) are enough for every
 *               job. Only read.
 *   job         FLASH_JOB_LENGTH(count) bytes. Only read.
 *   answers     FLASH_ANSWER_LENGTH * count bytes or more. What lies behind the
 *               last answer is left alone.
 *
 * No pointer needs an alignment.
 *
 * Every run starts with a part without power, whatever an earlier run left
 * behind; what lasts from one run to the next is what the buffers hold. An
 * operation that still runs after the last call leaves the old bytes;
 * docs/HOSTS.md says how a caller learns of it.
 *
 * Ownership: the caller owns all eight buffers. No pointer is kept after the
 * return, nothing is allocated and there is no global state, so that several
 * threads may call this function at the same time on different buffers; what
 * is only read may be shared. The buffers of a call must not overlap. A pointer
 * may be null only where its length is 0; otherwise it must point to as many
 * bytes as its length says.
 *
 * The archive is for x86-64, and needs memset and memmove.
 */
uint32_t flash_job_run(uint8_t *main_flash, size_t main_length,
                       uint8_t *otp, size_t otp_length,
                       uint8_t *options, size_t options_length,
                       uint8_t *sram, size_t sram_length,
                       const uint8_t *timings_us, size_t timings_length,
                       const uint8_t *scrap, size_t scrap_length,
                       const uint8_t *job, size_t job_length,
                       uint8_t *answers, size_t answers_length);

/*
 * Runs the job on the part without lines: every read and every fetch takes the
 * cells. All that is said of flash_job_run holds for this function too. On
 * equal buffers both give the same result, the same codes, and the same bytes
 * in main flash, OTP, option cells and SRAM. Where the values of an answer
 * differ, that of flash_job_run is stale, and this one is what the cells held.
 *
 * Both change the part. To compare them, run each on a copy of its own. This
 * function has an archive of its own, libflash_job_uncached.a.
 */
uint32_t flash_job_run_uncached(uint8_t *main_flash, size_t main_length,
                                uint8_t *otp, size_t otp_length,
                                uint8_t *options, size_t options_length,
                                uint8_t *sram, size_t sram_length,
                                const uint8_t *timings_us,
                                size_t timings_length,
                                const uint8_t *scrap, size_t scrap_length,
                                const uint8_t *job, size_t job_length,
                                uint8_t *answers, size_t answers_length);

#ifdef __cplusplus
}
#endif

#endif
