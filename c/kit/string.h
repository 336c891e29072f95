/* For the kit's compiler, which has no headers. */
#ifndef KIT_STRING_H
#define KIT_STRING_H
#include <stddef.h>
void *memset(void *to, int byte, size_t count);
void *memcpy(void *restrict to, const void *restrict from, size_t count);
int memcmp(const void *one, const void *other, size_t count);
#endif
