/* Circuit texts for measuring and comparing, the same in every run: each is made from a seed. */
#ifndef WORKLOADS_H
#define WORKLOADS_H

#include "plain.h"

/* Room for more operations than are accepted, of the longest line each. */
enum { LONGEST_LINE = sizeof "CX 127 126\n" - 1, MOST_TEXT = LONGEST_LINE * (MOST_OPS + 4) };

void seed(u64 value);
u64 draw(u64 below);
void draw_bytes(u8 *to, u64 count);

/* One operation in `share` is a measurement, none when share is 0; the rest are the seven gates. */
u64 make_mixed(u8 *to, u64 n, u64 ops, u64 share);
/* A gate, then a measurement, in turn. */
u64 make_alternate(u8 *to, u64 n, u64 ops);
u64 make_hadamards(u8 *to, u64 n, u64 ops);
/* The rotated surface patch of an odd distance d up to 7, on d * d data qubits and an ancilla for each
   of its d * d - 1 checks: as many rounds as 4,096 operations allow (32 of 128 operations at distance
   5, 15 of 264 at distance 7), in which `measure`, M or MR, reads the ancillas. */
u64 make_surface(u8 *to, int distance, const char *measure);
/* A record of n qubits with 4,096 outcomes before the rows of a random circuit; answers its length. */
u64 make_longest(u8 *record, u64 n, u64 circuit_seed, u64 outcome_seed);

#endif
