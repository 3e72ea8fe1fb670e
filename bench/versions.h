/* The versions that an author has before him, so that random edits can be limited to one of them. */
#ifndef VERSIONS_H
#define VERSIONS_H

#include "inputs.h"

/* The members of a random version of the box s.q as a site has it before it, by what the plain calls make of the edits
   that it has applied; says how many they are. None where it has no such box, or where they cannot all be listed. */
unsigned pick_version(const struct file *f, unsigned site, unsigned s, unsigned q, struct name *members);

#endif
