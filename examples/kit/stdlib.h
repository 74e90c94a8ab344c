/* See stdio.h beside this. */
#ifndef EXAMPLES_KIT_STDLIB_H
#define EXAMPLES_KIT_STDLIB_H
void exit(int status);
#endif
