/* A whole call in plain C. */
#include "plain.h"

#include <string.h>

const char plain_version[] = __VERSION__;

/* Nothing reads the words; the empty assembly keeps the compiler from seeing that. */
static void clear(uint64_t *work)
{
    memset(work, 0, HARBOUR_WORK * sizeof *work);
    __asm__ volatile("" : : "r"(work) : "memory");
}

outcome plain_call(const draft *of, uint64_t method, uint64_t checks, uint64_t trials)
{
    static uint64_t work[HARBOUR_WORK];
    outcome got = { .reply = plain_examine(&of->made) };
    if (got.reply.answer != HARBOUR_FINE)
        return got;
    clear(work);
    got = plain_run(of, method, checks, trials);
    clear(work);
    return got;
}
