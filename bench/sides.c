#include "sides.h"

#include <stdio.h>

/* plain.h's names, as the two builds have them. */
runner plain_run_gcc, plain_call_gcc, whole_run_gcc, plain_run_clang, plain_call_clang, whole_run_clang;
reader plain_read_gcc, plain_read_clang;
writer plain_write_gcc, plain_write_clang;
extern const char plain_version_gcc[], plain_version_clang[];

#ifdef WITH_CLANG
#define EACH(library, gcc, clang, gcc_words, clang_words) { library, gcc, clang, gcc_words, clang_words }
#else
#define EACH(library, gcc, clang, gcc_words, clang_words) { library, gcc, gcc_words }
#endif

runner *const searches[ALL_SIDES] = EACH(run, plain_run_gcc, plain_run_clang, whole_run_gcc, whole_run_clang);
runner *const calls[ALL_SIDES] = EACH(run, plain_call_gcc, plain_call_clang, NULL, NULL);
reader *const readers[ALL_SIDES] = EACH(harbour_read_t, plain_read_gcc, plain_read_clang, NULL, NULL);
writer *const writers[ALL_SIDES] = EACH(harbour_write_t, plain_write_gcc, plain_write_clang, NULL, NULL);
const char *const side_name[ALL_SIDES] = EACH("library", "gcc", "clang", "gcc by words", "clang by words");

void print_compilers(void)
{
#ifdef WITH_CLANG
    printf("The plain C is built by gcc (%s) and by clang (%s); the larger ratio counts.\n", plain_version_gcc,
           plain_version_clang);
#else
    printf("The plain C is built by gcc (%s) alone: clang was not found.\n", plain_version_gcc);
#endif
}
