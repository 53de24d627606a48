/* Stands in for the header of that name where the kit's compiler, which comes without headers, compiles a C program of this project: as much of
   it as include/senghovai.h needs. */
#ifndef TESTS_STDINT_H
#define TESTS_STDINT_H
typedef __UINT8_TYPE__ uint8_t;
typedef __UINT64_TYPE__ uint64_t;
#endif
