/* For the gate alone: the kit has no C headers. */
#ifndef HEADERS_STDDEF_H
#define HEADERS_STDDEF_H
typedef __SIZE_TYPE__ size_t;
#ifdef __cplusplus
#define NULL __null
#else
#define NULL ((void *)0)
#endif
#endif
