/* guards: the header's own functions, with no library behind them, from C or from C++. */
#include "guards.h"

#include "tally.h"

int main(void) {
    slips();
    anywhere();
    lines();
    return tally_told();
}
