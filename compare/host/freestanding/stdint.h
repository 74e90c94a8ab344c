/* The kit's compiler comes without headers; these are the types that adzequarry.h and host.c name. */
#ifndef FREESTANDING_STDINT_H
#define FREESTANDING_STDINT_H
typedef __UINT8_TYPE__ uint8_t;
typedef __UINT32_TYPE__ uint32_t;
typedef __UINT64_TYPE__ uint64_t;
typedef __INT32_TYPE__ int32_t;
typedef __UINTPTR_TYPE__ uintptr_t;
#endif
