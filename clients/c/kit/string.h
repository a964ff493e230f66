/* Stands in for C's header of this name where the compiler comes without. */
typedef __SIZE_TYPE__ size_t;
int memcmp(const void *one, const void *other, size_t length);
void *memset(void *start, int value, size_t length);
void *memcpy(void *to, const void *from, size_t length);
