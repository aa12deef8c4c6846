/* The groups of cases, one for each subject. */
#ifndef CASES_H
#define CASES_H

void example_cases(void);     /* document 01's own example, and 2,000 calls */
void constant_cases(void);    /* the header's constants */
void length_cases(void);      /* buffer lengths, refusal 1 */
void timing_cases(void);      /* the 24 timings, refusal 2 */
void head_cases(void);        /* the head of a job, refusals 3 and 4 */
void answer_cases(void);      /* room for the answers, refusal 6 */
void record_cases(void);      /* malformed calls, refusal 5 */
void order_cases(void);       /* several faults at once */
void fresh_cases(void);       /* what does not last from one run to the next */
void register_cases(void);    /* locks, lanes and flags */
void programming_cases(void); /* main flash and OTP programmed */
void erasing_cases(void);     /* sectors erased */
void option_cases(void);      /* option changes, regression, level 2 */
void cut_cases(void);         /* program operations and erases cut */
void option_cut_cases(void);  /* option changes and regressions cut */
void scrap_cases(void);       /* the scrap's length, refusal 21 */
void sram_cases(void);        /* the backup SRAM */
void fetch_cases(void);       /* instruction fetches */
void line_cases(void);        /* data lines and instruction lines */
void secrecy_cases(void);     /* two parts that differ in main flash and SRAM */
void writing_cases(void);     /* the job writer */

#endif
