/* What the driver needs of <stdlib.h>. */
#ifndef KIT_STDLIB_H
#define KIT_STDLIB_H
int atoi(const char *text);
#endif
