/* For the gate alone: the kit has no C headers. */
#ifndef HEADERS_STDIO_H
#define HEADERS_STDIO_H
int printf(const char *, ...);
#endif
