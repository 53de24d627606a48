/* Buffered lines in from standard input and bytes out to standard output, for the harness. What
   was written is flushed before a read that may wait, so a caller can ask line by line or send
   all its cases at once. */
#ifndef STREAM_H
#define STREAM_H

#include "senghovai_decl.h"

void *need(u64 size);
void release(void *block);

/* The next line without its end byte, in a buffer that the next call reuses; 0 at the end. */
const char *next_line(u64 *length);

void put_byte(char byte);
void put_text(const char *text);
void put_number(u64 number);
void put_hex(const u8 *bytes, u64 length);
void flush(void);

#endif
