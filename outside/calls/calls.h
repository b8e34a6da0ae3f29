/* What calls.c goes through. The C files here are C and C++ at once; calls.cpp comes along with C++. */
#ifndef CALLS_H
#define CALLS_H

#define LENGTH(list) (sizeof(list) / sizeof(list)[0])

/* Sizes, offsets, constants and function types of the header. */
void layout(void);

/* Every answer that is no refusal, from every function. */
void answers(void);

/* Every refusal, from every function that can give it: each at its limits, then several at once. */
void refusals(void);
void several_faults(void);

/* Files: what is answered of those that are read and written, each refusal at its limits, several at once. */
void files(void);
void file_refusals(void);
void several_file_faults(void);

/* NULL with length 0 for each part. */
void nothing_lent(void);

/* The functions that end in _t, where something is owed and where nothing is; outside/guards has every slip. */
void guarded(void);
void guarded_files(void);

#ifdef __cplusplus
/* The library beside the containers of C++. */
void with_containers(void);
#endif

#endif
