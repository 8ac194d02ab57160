#ifndef PAINTED_H
#define PAINTED_H

#include <stddef.h>

/* The bytes that this call writes to a stack of its own, which is painted before: from its top to the deepest word that changed. */
size_t painted_depth(void (*call)(void));

#endif
