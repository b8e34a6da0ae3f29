/* How fast the tables' file is read and written, on each side. */
#ifndef FILES_H
#define FILES_H

/* All sides have to agree first. */
void measure_files(void);

#endif
