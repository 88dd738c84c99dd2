#ifndef STDLIB_H
#define STDLIB_H
#include <stddef.h>
int atoi(const char *text);
void exit(int status);
#endif
