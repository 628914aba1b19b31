/* A run that is stopped by a signal, from the library or from the keyboard, names the command that it had reached. */
#ifndef HOST_SIGNALS_H
#define HOST_SIGNALS_H

#include <stddef.h>

#include "text.h"

/* From now on a signal that would end the program prints what was noted last on standard error, and ends it with this
 * status. A closed pipe is no signal any more, but an error of the output. */
void stopping_start(const char *program, int status);

/* Notes the command that starts now. */
void stopping_note(const char *file, size_t line, struct text command);

#endif
