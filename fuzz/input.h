/*
 * An input of the fuzz target: 16 bytes that say which part is lent, then a job
 * file. With 16 bytes of 00 the part is that of `rehearse`.
 */
#ifndef INPUT_H
#define INPUT_H

enum {
    SETTING = 16,
    HEAD = 7,
    RECORD = 16
};

/* The bytes of a setting. */
enum {
    SECTORS,            /* how many, by a table of 16 */
    WRONG_BUFFER,       /* main flash, OTP, option cells, SRAM or timings */
    WRONG_BY,           /* bytes too many, or too few: signed */
    USER_CHANGED,       /* bits turned in USER FF, */
    RDP_CHANGED,        /* in RDP AA, */
    NWRP_CHANGED,       /* and in nWRP FFFF, two bytes */
    OTP_LOCKED = 7,     /* blocks that are locked, two bytes */
    CELLS_CHANGED = 9,  /* bits turned in main flash and OTP blocks */
    TIMING,             /* a timing, by a table of 8; the first is 1,000 */
    TIMING_PLACE,       /* which of the 24 it is, or all; else 1,000 */
    ROOM_CHANGED,       /* room for answers, above or below need: signed */
    BUFFER_CHANGED,     /* the writer's buffer, above or below need: signed */
    SRAM_CHANGED,       /* bits turned in the SRAM, which is 00 else */
    SCRAP_LENT          /* length and bytes of the scrap, a table of 16 each */
};

#endif
