/* What <stddef.h> declares on a machine with 32-bit pointers. */
#ifndef TCREST_STDDEF_H
#define TCREST_STDDEF_H
typedef unsigned int size_t;
typedef int ptrdiff_t;
typedef int wchar_t;
#define NULL ((void *)0)
#endif
