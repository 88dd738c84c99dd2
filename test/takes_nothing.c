/*
 * A write in the place of the C library's, for test/use.py: standard output takes none of the bytes.  For x86-64, by the kit's own compiler,
 * which comes without headers.
 */

long syscall(long number, ...);

enum { WRITE = 1, OUTPUT = 1 };

long write(int file, const void *bytes, unsigned long count)
{
    return file == OUTPUT ? 0 : syscall(WRITE, (long)file, bytes, count);
}
