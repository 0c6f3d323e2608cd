/* Runs programs that read standard input and write standard output. */
#ifndef PROGRAMS_H
#define PROGRAMS_H

#include <stddef.h>
#include <stdint.h>

/* What programs_run answers if the program did not end by itself. */
enum { PROGRAMS_KILLED = -1 };

/* Opens an empty file that nobody else sees. Ends this program if there can be none. */
int programs_file(void);

/* Puts bytes into such a file, in place of those that it has. Ends this program if they do not fit. */
void programs_fill(int file, const uint8_t *bytes, size_t length);

/* Runs a program from one open file to another, each from its beginning, and answers its exit status. */
int programs_run(const char *path, int input, int output);

#endif
