/* Records of hires that are made up. */
#ifndef BILLS_H
#define BILLS_H

#include <stdbool.h>
#include <stdint.h>

/* Writes so many records to standard output, always the same for one seed; damage is NULL or the name of one. False where
   there is no damage of that name. */
bool write_hires(uint64_t seed, uint64_t hires, const char *damage);

#endif
