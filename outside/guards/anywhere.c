#include "guarded.h"
#include "guards.h"

enum { ROUNDS = 160000 };

/* A number of 128 bits, so that no end of a part wraps. */
__extension__ typedef unsigned __int128 wide;

static uint64_t state = 1;

static uint64_t draw(uint64_t below) {
    state = state * UINT64_C(6364136223846793005) + UINT64_C(1442695040888963407);
    return (state >> 33) % below;
}

/* Few places, so that parts often meet, at both ends of the address space and in the middle. */
static part draw_part(void) {
    const uint64_t bases[] = {0, 0, UINT64_C(1) << 40, 0 - UINT64_C(48)};
    const uint64_t lengths[] = {0, 1, 2, 3, 8, 64, UINT64_MAX / 8, UINT64_MAX / 8 + 1, UINT64_MAX};
    part drawn;
    drawn.start = bases[draw(4)] + draw(2) * 8 * draw(6) + (draw(4) == 0 ? draw(8) : 0);
    drawn.length = lengths[draw(draw(4) == 0 ? 9 : 6)];
    return drawn;
}

static wide end_of(const guarded *g, const part *parts, size_t at) {
    return (wide)parts[at].start + (wide)parts[at].length * (is_words(g, at) ? 8 : 1);
}

static int amiss(const guarded *g, const part *parts, size_t at) {
    const int past = end_of(g, parts, at) > (wide)UINT64_MAX + 1;
    return parts[at].length > 0 && (parts[at].start == 0 || past || (is_words(g, at) && (parts[at].start & 7) != 0));
}

static int apart(const guarded *g, const part *parts, size_t one, size_t other) {
    return end_of(g, parts, one) <= parts[other].start || end_of(g, parts, other) <= parts[one].start;
}

static int meets_an_earlier(const guarded *g, const part *parts, size_t later) {
    int met = 0;
    for (size_t earlier = 0; earlier < later; earlier++) {
        const int both = parts[earlier].length > 0 && parts[later].length > 0;
        const int written = is_written(g, earlier) + is_written(g, later) > 0;
        met += both && written && !apart(g, parts, earlier, later);
    }
    return met > 0;
}

/* From the last pointer down, so that the first at fault is what is left standing; amiss after overlaps. */
static size_t due_fault(const guarded *g, const part *parts) {
    size_t count = parts_of(g), fault = count;
    for (size_t at = count; at-- > 0;) fault = meets_an_earlier(g, parts, at) ? at : fault;
    size_t first = count;
    for (size_t at = count; at-- > 0;) first = amiss(g, parts, at) ? at : first;
    return first < count ? first : fault;
}

void anywhere(void) {
    for (unsigned round = 0; round < ROUNDS; round++) {
        const guarded *g = &every_guarded[round % GUARDED];
        part parts[PARTS];
        for (size_t at = 0; at < PARTS; at++) parts[at] = draw_part();
        const size_t fault = due_fault(g, parts);
        if (fault == parts_of(g)) {
            is_called(g, "anywhere", parts);
        } else {
            is_owed(g, "anywhere", parts, fault);
        }
    }
}
