/* The probability of a stated readout beside the run that gave it: prints a table, and answers 1 when all answers are right. */
#ifndef LIKELY_H
#define LIKELY_H

int likely(double limit);

#endif
