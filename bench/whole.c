/* BT and CBJ by whole words: all slots of a boat are sieved when it is reached, link by link, and all their trials and
   checks are taken off; what the search does not come to is given back. */
#include "slots.h"

/* Each link looks at what the one before it has left, so a slot's looks are a binary number: units and twos hold its
   lowest bits for all slots, and the last look of each block counts four. */
typedef struct {
    uint64_t units, twos, fours[HARBOUR_BOATS / 4];
    size_t blocks;
} looks;

/* Of all slots of a boat: those left, their checks, and whom to blame. */
typedef struct {
    uint64_t left, checks, blame;
} sifted;

/* A set is read when its boat has no slot left, so a link may be blamed before the slot's own trial. */
INLINE uint64_t allowed(int jumps, uint64_t slots, const link *l, const uint64_t *held, uint64_t *blame)
{
    const uint64_t left = slots & l->rows[held[l->boat]];
    if (jumps)
        *blame |= (uint64_t)(left != slots) << l->boat;
    return left;
}

/* CBJ alone keeps the looks: it goes back past boats, which give back. */
INLINE sifted sieve(int jumps, const index_of *x, size_t i, const uint64_t *held, looks *kept)
{
    const link *l = x->links + x->first[i], *end = x->links + x->first[i + 1];
    uint64_t a = ~0ull >> (HARBOUR_SLOTS - x->sizes[i]), b, c, d, units = 0, twos = 0, checks = 0, blame = 0;
    size_t blocks = 0;
    for (; a && end - l >= 4; l += 4) {
        b = allowed(jumps, a, l, held, &blame);
        c = allowed(jumps, b, l + 1, held, &blame);
        d = allowed(jumps, c, l + 2, held, &blame);
        units ^= a ^ b ^ c ^ d;
        twos ^= b ^ d;
        checks += 4 * ones(d);
        if (jumps)
            kept->fours[blocks++] = d;
        a = allowed(jumps, d, l + 3, held, &blame);
    }
    if (a && end - l >= 2) {
        b = allowed(jumps, a, l, held, &blame);
        units ^= a ^ b;
        twos ^= b;
        a = allowed(jumps, b, l + 1, held, &blame);
        l += 2;
    }
    if (l < end) {
        units ^= a;
        a = allowed(jumps, a, l, held, &blame);
    }
    if (jumps) {
        kept->units = units;
        kept->twos = twos;
        kept->blocks = blocks;
    }
    return (sifted){ a, checks + ones(units) + 2 * ones(twos), blame };
}

/* The boats from i up to the end have not come to the slots after those that they hold; BT has to look again. */
INLINE void give_back(int jumps, const index_of *x, size_t i, size_t end, const uint64_t *held, looks *kept,
                      allowance *left)
{
    for (; i < end; i++) {
        const uint64_t after = ~1ull << held[i];
        if (!jumps)
            sieve(1, x, i, held, &kept[i]);
        left->trials += x->sizes[i] - 1 - held[i];
        left->checks += ones(kept[i].units & after) + 2 * ones(kept[i].twos & after);
        for (size_t k = 0; k < kept[i].blocks; k++)
            left->checks += 4 * ones(kept[i].fours[k] & after);
    }
}

/* Where all slots of a boat might pass an allowance, the search ends slot by slot. */
INLINE harbour_reply by_words(int jumps, const index_of *x, uint8_t *plan, allowance given)
{
    looks kept[HARBOUR_BOATS];
    uint64_t held[HARBOUR_BOATS], set[HARBOUR_BOATS], rest[HARBOUR_BOATS];
    allowance left = given;
    size_t i = 0;
    while (i < x->n) {
        sifted s = sieve(jumps, x, i, held, &kept[i]);
        if (s.checks > left.checks || x->sizes[i] > left.trials) {
            give_back(jumps, x, 0, i, held, kept, &left);
            return look_back(jumps, x, (reached){ i, held, set, left }, plan, given);
        }
        left.checks -= s.checks;
        left.trials -= x->sizes[i];
        while (!s.left) {
            const size_t from = i;
            if (jumps ? !s.blame : !i) {
                give_back(jumps, x, 0, i, held, kept, &left);
                return reply(HARBOUR_NO_PLAN, given, left.checks, left.trials);
            }
            i = back(jumps, i, set, &s.blame);
            if (jumps)
                give_back(jumps, x, i + 1, from, held, kept, &left);
            s.left = rest[i];
        }
        held[i] = (uint64_t)__builtin_ctzll(s.left);
        rest[i] = s.left & (s.left - 1);
        set[i++] = s.blame;
    }
    give_back(jumps, x, 0, i, held, kept, &left);
    return solved(held, x->n, plan, given, left.checks, left.trials);
}

outcome whole_run(const draft *of, uint64_t method, uint64_t checks, uint64_t trials)
{
    const allowance given = { checks, trials };
    outcome got = { 0 };
    index_of x;
    make_index(&x, 1, &of->made);
    got.reply = method == HARBOUR_BT ? by_words(0, &x, got.plan, given) : by_words(1, &x, got.plan, given);
    return got;
}
