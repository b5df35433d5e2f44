/* What peer and driver need of <stddef.h>: the kit's clang has no headers of its own, and Debian's would need a package. */
#ifndef KIT_STDDEF_H
#define KIT_STDDEF_H
typedef __SIZE_TYPE__ size_t;
#define NULL ((void *)0)
#endif
