/*
 * The bench: the eight buffers that a job run borrows, each between two guards,
 * and the run itself, on the part and then on the uncached part, after which
 * every byte of every buffer, borrowed for reading or for writing, and every
 * guard is compared with what the case expects. The job writer writes into the
 * job's buffer, between its guards.
 */
#ifndef BENCH_H
#define BENCH_H

#include <stdbool.h>
#include <stddef.h>
#include <stdint.h>

enum buffer {
    MAIN_FLASH, OTP, OPTIONS, SRAM, TIMINGS, SCRAP, JOB, ANSWERS, BUFFERS
};

struct lent {
    const char *name;
    uint8_t *bytes;     /* as lent; the guards stand right before and after */
    uint8_t *expected;  /* as they must be after the run */
    uint8_t *before;    /* as they were before it */
    size_t capacity;
    size_t length;
    bool null;          /* lend a null pointer */
};

extern struct lent lent[BUFFERS];

/* Lends so many bytes of a buffer; for lengths other than the usual ones. */
void lend(enum buffer which, size_t length);
void lend_null(enum buffer which);

/* Bytes as they are before the run, and after it unless expected otherwise. */
void put(enum buffer which, size_t offset, size_t count, uint8_t byte);

/* Bytes that the run has to change. */
void expect(enum buffer which, size_t offset, size_t count, uint8_t byte);

/* The same, for bytes that are not all alike. */
void put_bytes(enum buffer which, size_t offset, const uint8_t *bytes,
               size_t count);
void expect_bytes(enum buffer which, size_t offset, const uint8_t *bytes,
                  size_t count);

/*
 * The answer that call number `index` has to get if the job is not refused; a
 * job begins with none. Where lines hold old bytes, the uncached part has to
 * give another value.
 */
void expect_answer(size_t index, uint8_t code, uint64_t value);
void expect_uncached(size_t index, uint64_t value);
void expect_no_answers(void);

/*
 * A part with n sectors at level 0: main flash with a pattern in it that holds
 * no FF, OTP and option cells FF but for RDP AA, the SRAM with a pattern that
 * holds no 00, and 24 different timings,
 * 1000 * (PSIZE + 1) + 100 * (column + 1) microseconds. With it comes scrap as
 * long as main flash, with a pattern FE, FD, FC and so on that holds no FF.
 */
void lend_part(unsigned n);
size_t main_length(unsigned n);
uint8_t pattern(size_t offset);
uint8_t sram_pattern(size_t offset);
void put_timing(unsigned row, unsigned column, uint32_t microseconds);

/* The cells that a regression changes, as it leaves them. */
void expect_regressed(void);

/*
 * Runs the job as the case of that name on the uncached part, then from the
 * same bytes on the part, and compares everything each time.
 */
void run(uint32_t result, const char *name, ...);

/*
 * A case of the job writer: between the two the job's buffer is lent to one of
 * the writer's functions, whose result is then handed over. Only this buffer is
 * compared.
 */
void start_writing(const char *name, ...);
void end_writing(uint32_t got, uint32_t result);
uint8_t *pointer(enum buffer which);

/* How the cases went; 0 if none differs, as an exit status. */
int report(void);
void show_names(void);

#endif
