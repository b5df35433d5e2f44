/* What peer and driver need of <string.h>. */
#ifndef KIT_STRING_H
#define KIT_STRING_H
#include <stddef.h>
void *memcpy(void *to, const void *from, size_t bytes);
void *memset(void *room, int byte, size_t bytes);
int strcmp(const char *one, const char *other);
#endif
