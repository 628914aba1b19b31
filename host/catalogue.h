/* The objects, printed for people who write cases. */
#ifndef HOST_CATALOGUE_H
#define HOST_CATALOGUE_H

/* Prints a line for each object. */
void catalogue_print(void);

#endif
