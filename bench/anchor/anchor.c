/* The anchor: the seven entries of document 01 in plain C, made to be fast for V up to 128, to measure the library against. It honours every
   rule, those of the buffers too. It is no part of the library: its scratch is static, so it is not for threads, and it assumes a
   little-endian processor.

   Rows are two words. The classes of a level are numbered through a hash table of digests, each digest a sum over the set of pairs of halves
   (multiplied in vectors, repeated midpoints taken off again), and a pair joins a class only after the sorted signatures were compared
   exactly. The inverse of a class is a class, so half of the pairs need none of this; a pair alone in its class stays alone; large groups of
   midpoints are intersected as bit sets. Sequences are walked with shared prefixes, only in rows that hold a first pair. */
#include "anchor.h"

#include "build.h"
#include "check.h"
#include "parts.h"
#include "stored.h"
