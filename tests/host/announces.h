/* The functions of own announces, on parts of every length that matters. */
#ifndef HOST_ANNOUNCES_H
#define HOST_ANNOUNCES_H

void announces_try(void);

#endif
