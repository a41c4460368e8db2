/* A clock that is set back: the wall clock reads so many seconds less as the first number of a file says. The variable
   WQD_CLOCK names the file. It is loaded before the C library, whose call it takes the place of, and needs no header. */

struct moment {
    long seconds;
    long nanoseconds;
};

extern char *getenv(const char *);
extern int open(const char *, int, ...);
extern long read(int, void *, unsigned long);
extern int close(int);
extern long syscall(long, ...);

enum { WALL = 0, READ_CLOCK = 228 };

static long seconds_back(void) {
    char text[16];
    long found = 0, length, at;
    const char *name = getenv("WQD_CLOCK");
    int file = name ? open(name, 0) : -1;
    if (file < 0) return 0;
    length = read(file, text, sizeof text);
    close(file);
    for (at = 0; at < length && text[at] >= '0' && text[at] <= '9'; at++) found = found * 10 + (text[at] - '0');
    return found;
}

int clock_gettime(int clock, struct moment *moment) {
    long status = syscall(READ_CLOCK, (long)clock, moment);
    if (status == 0 && clock == WALL) moment->seconds -= seconds_back();
    return (int)status;
}
