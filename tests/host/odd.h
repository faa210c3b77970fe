/* Lengths at the edges, and far from any that a host should give. */
#ifndef HOST_ODD_H
#define HOST_ODD_H

/* Calls every function with buffers of such lengths, and expects document 01's refusals. */
void odd_lengths(void);

#endif
