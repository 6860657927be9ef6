/* For the gate alone: the kit has no C headers. */
#ifndef HEADERS_STDINT_H
#define HEADERS_STDINT_H
typedef __UINT8_TYPE__ uint8_t;
typedef __UINT32_TYPE__ uint32_t;
#endif
