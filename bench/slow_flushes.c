/* Makes the flushes of a program slower, to simulate a slower disk. Build it as a library and preload it:

       cc -shared -fPIC -O2 -o slow_flushes.so slow_flushes.c
       FLUSH_DELAY=2000 LD_PRELOAD=./slow_flushes.so PROGRAM

   Each fsync and fdatasync of the program returns at least FLUSH_DELAY microseconds after the disk has done it, and at once
   where it fails. The calls of several threads are delayed side by side. It includes no header, since tests build it by a compiler that has none. */

struct Time {
    long seconds, nanoseconds;
};

extern char *getenv(const char *);
extern int atoi(const char *);
extern long syscall(long, ...);

/* The numbers of the calls on x86_64. */
enum { NANOSLEEP = 35, FSYNC = 74, FDATASYNC = 75 };

static struct Time delay;

__attribute__((constructor)) static void start(void)
{
    const char *text = getenv("FLUSH_DELAY");
    int microseconds = text ? atoi(text) : 0;

    delay.seconds = microseconds / 1000000;
    delay.nanoseconds = microseconds % 1000000 * 1000;
}

static int flush(long call, int file)
{
    int done = (int)syscall(call, file);

    if (done == 0 && (delay.seconds > 0 || delay.nanoseconds > 0)) {
        struct Time left = delay;
        while (syscall(NANOSLEEP, &left, &left) != 0)
            ;
    }
    return done;
}

int fsync(int file)
{
    return flush(FSYNC, file);
}

int fdatasync(int file)
{
    return flush(FDATASYNC, file);
}
