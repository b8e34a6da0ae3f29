/* calls [--exact]: every function of the header called, with good and bad input, from C or from C++. */
#include "calls.h"

#include "lent.h"
#include "tally.h"

int main(int words, char **word) {
    lend_as_told(words, word);
    layout();
    answers();
    refusals();
    several_faults();
    files();
    file_refusals();
    several_file_faults();
    nothing_lent();
    guarded();
    guarded_files();
#ifdef __cplusplus
    with_containers();
#endif
    return tally_told();
}
