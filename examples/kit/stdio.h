/* The Rattle kit has a C library without headers; this and stdlib.h are what the example takes from it. */
#ifndef EXAMPLES_KIT_STDIO_H
#define EXAMPLES_KIT_STDIO_H
int printf(const char *format, ...);
#endif
