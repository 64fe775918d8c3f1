/* The standard streams, as descriptors 0 to 2. */
#ifndef HOST_STREAMS_H
#define HOST_STREAMS_H

#include <sys/stat.h>

/* Opens /dev/null for each standard stream that is closed. A program must call it first: otherwise the next file or socket that it opens
 * gets the number of a stream, and the program's lines go into it. On failure, ends the program. From then on a write beyond the greatest
 * length of a file (RLIMIT_FSIZE) fails, and does not end the program. */
void streams_secure(void);

/* Whether a standard stream is this file. If standard error is, it is redirected to /dev/null, so that no message goes there either. */
int streams_lead_to(const struct stat *file);

#endif
