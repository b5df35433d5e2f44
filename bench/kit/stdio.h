/* What the driver needs of <stdio.h>. */
#ifndef KIT_STDIO_H
#define KIT_STDIO_H
int printf(const char *format, ...);
int puts(const char *text);
#endif
