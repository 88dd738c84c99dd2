/*
 * A read and a write in the place of the C library's, for test/use.py: every second call is interrupted, and the others move a hundred
 * bytes at most.  For x86-64, by the kit's own compiler, which comes without headers.
 */

long syscall(long number, ...);
int *__errno_location(void);

enum { READ = 0, WRITE = 1, INTERRUPTED = 4, MOST = 100 };

static int reads, writes;

static int is_interrupted(int *calls)
{
    if (++*calls % 2 == 0)
        return 0;
    *__errno_location() = INTERRUPTED;
    return 1;
}

static unsigned long few(unsigned long count)
{
    return count < MOST ? count : MOST;
}

long read(int file, void *bytes, unsigned long count)
{
    return is_interrupted(&reads) ? -1 : syscall(READ, (long)file, bytes, few(count));
}

long write(int file, const void *bytes, unsigned long count)
{
    return is_interrupted(&writes) ? -1 : syscall(WRITE, (long)file, bytes, few(count));
}
