#ifndef SYS_MMAN_H
#define SYS_MMAN_H
#include <stddef.h>
#define PROT_NONE 0
#define PROT_READ 1
#define PROT_WRITE 2
#define MAP_PRIVATE 2
#define MAP_ANONYMOUS 32
#define MAP_FAILED ((void *)-1)
void *mmap(void *near, size_t length, int protection, int flags, int file, long offset);
int mprotect(void *from, size_t length, int protection);
#endif
