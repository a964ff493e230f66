/* Stands in for C's header of this name where the compiler comes without. */
int printf(const char *format, ...);
