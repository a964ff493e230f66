/* Stands in for C's header of this name where the compiler comes without. */
typedef __SIZE_TYPE__ size_t;
#define NULL ((void *)0)
