#ifndef STDIO_H
#define STDIO_H
#include <stddef.h>
typedef struct whatever FILE;
extern FILE *stderr;
int printf(const char *format, ...);
int fprintf(FILE *file, const char *format, ...);
FILE *fopen(const char *name, const char *mode);
size_t fread(void *bytes, size_t size, size_t count, FILE *file);
size_t fwrite(const void *bytes, size_t size, size_t count, FILE *file);
int fclose(FILE *file);
int remove(const char *name);
#endif
