/* With the other files of this folder: the little of the C library's headers that the examples need, for x86-64 Linux, where the compiler
   of Rattle's kit has no headers. */
#ifndef STDDEF_H
#define STDDEF_H
#define NULL ((void *)0)
typedef unsigned long size_t;
#endif
