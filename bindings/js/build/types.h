/* The types of stddef.h and stdint.h that are used here: the kit's clang comes without headers. */
#ifndef TYPES_H
#define TYPES_H
typedef __SIZE_TYPE__ size_t;
typedef __UINT32_TYPE__ uint32_t;
typedef __UINT64_TYPE__ uint64_t;
#endif
