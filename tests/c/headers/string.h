/* For the gate alone: the kit has no C headers. */
#ifndef HEADERS_STRING_H
#define HEADERS_STRING_H
#include <stddef.h>
void *memset(void *, int, size_t);
size_t strlen(const char *);
#endif
