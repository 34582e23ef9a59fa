/* Loaded before the C library, it holds the program where its new file is made and still empty: the first write to a file says ../NAME.reached and waits for
 * ../NAME.go; where ../NAME.fail is there too, it fails as on a full device. So tests/program_cases.sh can put two runs in any order. x86-64 Linux, no C library. */
#ifndef NAME
#error "-DNAME says which run it is"
#endif

static long call(long number, long a, long b, long c)
{
    long r;
    __asm__ volatile("syscall" : "=a"(r) : "a"(number), "D"(a), "S"(b), "d"(c) : "rcx", "r11", "memory");
    return r;
}
enum { WRITE = 1, OPEN = 2, CLOSE = 3, NANOSLEEP = 35, ACCESS = 21, O_WRONLY_CREAT = 0x41, ENOSPC = 28 };

static int there(const char *path) { return call(ACCESS, (long)path, 0, 0) == 0; }

int *__errno_location(void);

long write(int fd, const void *bytes, unsigned long count)
{
    static int held;
    if (fd > 2 && !held) {
        long moment[2] = {0, 10000000};
        held = 1;
        call(CLOSE, call(OPEN, (long)"../" NAME ".reached", O_WRONLY_CREAT, 0644), 0, 0);
        while (!there("../" NAME ".go"))
            call(NANOSLEEP, (long)moment, 0, 0);
        if (there("../" NAME ".fail")) {
            *__errno_location() = ENOSPC;
            return -1;
        }
    }
    long r = call(WRITE, fd, (long)bytes, (long)count);
    if (r < 0) {
        *__errno_location() = (int)-r;
        return -1;
    }
    return r;
}
