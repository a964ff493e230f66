/* Stands in for C's header of this name where the compiler comes without. */
typedef __UINT8_TYPE__ uint8_t;
typedef __UINT16_TYPE__ uint16_t;
typedef __UINT32_TYPE__ uint32_t;
#define SIZE_MAX __SIZE_MAX__
