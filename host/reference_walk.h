/* The reference's walk: every instance of a bridge, as one get-next after the other answers it. */
#ifndef HOST_REFERENCE_WALK_H
#define HOST_REFERENCE_WALK_H

#include <stdio.h>

#include "bridge.h"
#include "text.h"

/* Writes the bindings of a complete walk. False, with the reason, where a call or the file fails. */
bool walk_of(struct bridge *bridge, FILE *file, struct complaint *why);

#endif
