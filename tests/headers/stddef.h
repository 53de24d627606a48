/* Stands in for the header of that name where the kit's compiler, which comes without headers, compiles a C program of this project: as much of
   it as include/senghovai.h needs. */
#ifndef TESTS_STDDEF_H
#define TESTS_STDDEF_H
typedef __SIZE_TYPE__ size_t;
#endif
