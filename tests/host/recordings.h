/* The functions of recordings, on files whole, cut and spoiled. */
#ifndef HOST_RECORDINGS_H
#define HOST_RECORDINGS_H

void recordings_try(void);

#endif
