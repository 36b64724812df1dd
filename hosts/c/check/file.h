/* The two files, laid out by the words of the rules, the high byte of a number first: both begin with a count of all that
 * follows and the version 1, in 4 bytes and 1. Then a checkpoint has nx, ny, the step number and every entry, in 2, 2, 4 and 8
 * bytes each; a tally's file has its ten numbers, in 8 bytes each. */
#ifndef FILE_H
#define FILE_H

#include "call.h"
#include "rules.h"

/* The bytes of a tally's file. */
enum { TALLY_FILE = 85 };

/* Bytes of the file that the call is lent, which it keeps: a number, in so many bytes. */
void hold_bytes(const Call *call, size_t at, size_t width, uint64_t number);

/* The file of the call's sides and step number and of what f is given, which it keeps. */
void hold_file(const Call *call);

/* The same file, as what the call must write. */
void want_file(const Call *call);

/* The file of a tally, which the call keeps, and as what it must write. */
void hold_tally_file(const Call *call, const uint64_t tally[TALLY_NUMBERS]);
void want_tally_file(const Call *call, const uint64_t tally[TALLY_NUMBERS]);

#endif
