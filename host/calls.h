/*
 * Building a job call by call, each with the answer it has to get. What the
 * header names has a shorter name here, so that every case holds the header to
 * what the archive does. CR's and ACR's bits are those of PM0059 2.8.
 */
#ifndef CALLS_H
#define CALLS_H

#include <stdint.h>

#include "flash_job.h"

#define ACR     FLASH_ACR
#define KEYR    FLASH_KEYR
#define OPTKEYR FLASH_OPTKEYR
#define SR      FLASH_SR
#define CR      FLASH_CR
#define OPTCR   FLASH_OPTCR

/* CR */
#define PG       0x00000001u
#define SER      0x00000002u
#define MER      0x00000004u
#define SNB(s)   ((uint32_t)(s) << 3)
#define PSIZE(p) ((uint32_t)(p) << 8)
#define STRT     0x00010000u
#define EOPIE    0x01000000u
#define ERRIE    0x02000000u
#define LOCK     0x80000000u

/* ACR */
#define ICEN  0x00000200u
#define DCEN  0x00000400u
#define ICRST 0x00000800u
#define DCRST 0x00001000u

/* SR */
#define EOP    FLASH_EOP
#define OPERR  FLASH_OPERR
#define WRPERR FLASH_WRPERR
#define PGAERR FLASH_PGAERR
#define PGPERR FLASH_PGPERR
#define PGSERR FLASH_PGSERR
#define BSY    FLASH_BSY

#define MAIN_START    FLASH_MAIN_START
#define SYSTEM_START  FLASH_SYSTEM_START
#define OTP_START     FLASH_OTP_START
#define OTP_LOCKS     (FLASH_OTP_START + FLASH_OTP_LOCKS_AT)
#define OPTIONS_START FLASH_OPTIONS_START
#define SRAM_START    FLASH_SRAM_START

/* Places in the option cells */
#define USER FLASH_OPTIONS_USER_AT
#define RDP  FLASH_OPTIONS_RDP_AT
#define NWRP FLASH_OPTIONS_NWRP_AT

enum boot {
    BOOT_FLASH = FLASH_BOOT_FLASH,
    BOOT_SYSTEM = FLASH_BOOT_SYSTEM,
    BOOT_RAM = FLASH_BOOT_RAM
};

enum who { CPU = FLASH_WHO_CPU, DEBUGGER = FLASH_WHO_DEBUGGER };

/* Codes of answers */
enum {
    DONE = FLASH_CODE_DONE,
    OUTSIDE_MAP = FLASH_CODE_OUTSIDE_MAP,
    TIME_ABOVE_LIMIT = FLASH_CODE_TIME_ABOVE_LIMIT,
    REGISTER_ACCESS = FLASH_CODE_REGISTER_ACCESS,
    NO_POWER = FLASH_CODE_NO_POWER,
    STALLED = FLASH_CODE_STALLED,
    LOCKED = FLASH_CODE_LOCKED,
    CLOSED = FLASH_CODE_CLOSED,
    WRONG_KEY = FLASH_CODE_WRONG_KEY,
    NOT_CONNECTED = FLASH_CODE_NOT_CONNECTED,
    LEVEL_2 = FLASH_CODE_LEVEL_2,
    FLAG_RAISED = FLASH_CODE_FLAG_RAISED,
    WAIT_EXPIRED = FLASH_CODE_WAIT_EXPIRED,
    SHORT_SCRAP = FLASH_CODE_SHORT_SCRAP
};

/* An empty job; the cells stay as the run before left them. */
void new_job(void);
unsigned calls(void);

/* One call more, and then its answer. */
void reset(enum boot boot);
void debugger_on(void);
void debugger_off(void);
void read_by(enum who who, uint8_t width, uint32_t address);
void write_by(enum who who, uint8_t width, uint32_t address, uint64_t value);
void pass_us(uint32_t microseconds);
void wait_ms(uint32_t milliseconds);
void fetch(uint32_t address);
void record(const uint8_t bytes[FLASH_RECORD_LENGTH]);
void answer(uint8_t code, uint64_t value);

/*
 * The answer of a read or a fetch that is done: a value from lines, and the
 * cells' own, which the uncached part gives.
 */
void answer_old(uint64_t value, uint64_t uncached);

/* The two keys of a lock, both taken. */
void open_cr(enum who who);
void open_optcr(enum who who);

/*
 * Reads and writes of the backup SRAM that are closed, in every width and at
 * both ends; what reaches outside is told first. None changes a byte.
 */
void closed_sram(enum who who);

/* A new job that begins with power, an open CR and these fields in it. */
void new_open_job(uint32_t fields);

/*
 * A new job in which a debugger is connected and writes OPTCR, which starts an
 * option change if OPTSTRT, bit 1, is in the fields.
 */
void new_debugger_job(uint32_t optcr);

/* A job of six calls that programs byte 10 of main flash with 00. */
void changing_job(void);

/*
 * Starts what that column of the timings times, on a part with n = 6 and an
 * open CR, and expects the cells as its end leaves them.
 */
void start_operation(unsigned row, unsigned column);

/* A reset that cuts what is running: nothing goes on, and no EOP rises. */
void cut(enum boot boot);

#endif
