/* Room for the answers, refusal 6; and the bytes past the last answer. */
#include "bench.h"
#include "calls.h"
#include "cases.h"

static void six_answers(size_t room)
{
    lend_part(1);
    changing_job();
    lend(ANSWERS, room);
    if (room >= 96)
        expect(MAIN_FLASH, 0x10, 1, 0x00);
    run(room < 96 ? 6 : 0, "6 calls, %lu bytes for their answers",
        (unsigned long)room);
}

static void two_thousand_answers(size_t room, uint32_t result)
{
    unsigned i;

    lend_part(1);
    new_job();
    for (i = 0; i < 2000; i++) {
        reset(BOOT_FLASH);  answer(DONE, 0);
    }
    lend(ANSWERS, room);
    run(result, "2,000 calls, %lu bytes for their answers",
        (unsigned long)room);
}

void answer_cases(void)
{
    static const size_t rooms[] = {0,  1,  15,  16,  80,  95,
                                   96, 97, 111, 112, 1000};
    unsigned i;

    for (i = 0; i < sizeof rooms / sizeof rooms[0]; i++)
        six_answers(rooms[i]);
    two_thousand_answers(16, 6);
    two_thousand_answers(31999, 6);
    two_thousand_answers(32000, 0);
    two_thousand_answers(40000, 0);
}
