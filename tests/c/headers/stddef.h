/* Stands in for the C library's header where a test is compiled for x86-64 by the kit alone. */
typedef unsigned long size_t;
