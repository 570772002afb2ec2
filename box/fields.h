/* Commands as the writers take them (document 02, T-10): sixteen words, the code and a number for each field. As in inputs.h nothing
 * here comes from the unit. */
#ifndef FIELDS_H
#define FIELDS_H

#include "inputs.h"

/* The places of the words, in the order that the C interface has them; the last is 0. */
enum { CODE, STREAM_ID, SUBSTREAM_ID, RANGE, LEAF, VMID, ASID, ADDRESS, CS, NUM, SCALE, TG, TTL, TTL128, SIZE, NOTHING, FIELDS };

enum { CODES = 20 };

/* Which of the codes it is, from the lowest up; CODES if it is none. */
size_t code_place(uint64_t code);

/* The 16 bytes of a command. A field that it does not have is 0 and does no harm. */
void put_fields(const uint64_t fields[FIELDS], uint8_t slot[16]);

/* The features that a code needs, by its place. */
uint64_t features_for(size_t place);

/* A legal command with this code, if the features have what it needs; and one with any code. */
void legal_fields(struct dice *dice, uint64_t features, size_t place, uint64_t fields[FIELDS]);
void any_fields(struct dice *dice, uint64_t features, uint64_t fields[FIELDS]);

/* A command that is refused, one way or the other: with 20, if the features lack something that a code needs, else 21; with 21.
 * Gives the number. */
uint64_t absent_fields(struct dice *dice, uint64_t features, uint64_t fields[FIELDS]);
uint64_t spoilt_fields(struct dice *dice, uint64_t features, uint64_t fields[FIELDS]);

#endif
