// Preloaded into the program, so that its reads of descriptor 0 and its writes to descriptor 1 go as the environment says, with READ_
// or WRITE_ in front:
//   MOST   a call takes no more than so many bytes
//   EINTR  every so-manieth call is interrupted
//   STOP   after so many bytes in all, calls fail with the errno ERROR
// and with CLOSE_ERROR closing a second descriptor of what descriptor 1 leads to fails with that errno.
// No headers: the kit's compiler, which makes code for x86-64 on every machine, comes with none.
typedef unsigned long size;

extern char *program_invocation_short_name;
char *getenv(const char *name);
int atoi(const char *text);
int strcmp(const char *a, const char *b);
int *__errno_location(void);
long syscall(long number, ...);

enum { READ = 0, WRITE = 1, CLOSE = 3, FSTAT = 5, EINTR = 4 };

struct way {
    const char *most, *eintr, *stop, *error;
    int calls;
    size done;
};

static struct way reading = {"READ_MOST", "READ_EINTR", "READ_STOP", "READ_ERROR", 0, 0};
static struct way writing = {"WRITE_MOST", "WRITE_EINTR", "WRITE_STOP", "WRITE_ERROR", 0, 0};

// On x86-64 the shell has it preloaded too.
static int is_program(void) {
    return strcmp(program_invocation_short_name, "cabinet_list") == 0;
}

static int fail(int error) {
    *__errno_location() = error;
    return -1;
}

static int number(const char *name) {
    const char *text = getenv(name);
    return text ? atoi(text) : 0;
}

static long call(struct way *w, long what, int fd, const void *bytes, size n) {
    size most = n;
    if (number(w->eintr) && ++w->calls % number(w->eintr) == 0)
        return fail(EINTR);
    if (number(w->most) && most > (size)number(w->most))
        most = number(w->most);
    if (getenv(w->stop)) {
        size left = number(w->stop) - w->done;
        if (left == 0)
            return fail(number(w->error));
        if (most > left)
            most = left;
    }
    long got = syscall(what, fd, bytes, most);
    if (got > 0)
        w->done += got;
    return got;
}

long read(int fd, void *bytes, size n) {
    if (fd == 0 && is_program())
        return call(&reading, READ, fd, bytes, n);
    return syscall(READ, fd, bytes, n);
}

long write(int fd, const void *bytes, size n) {
    if (fd == 1 && is_program())
        return call(&writing, WRITE, fd, bytes, n);
    return syscall(WRITE, fd, bytes, n);
}

// Whether both lead to one file: the first two words of what fstat answers are the device and the file's number there.
static int same_file(int a, int b) {
    unsigned long x[32], y[32];
    return syscall(FSTAT, a, x) == 0 && syscall(FSTAT, b, y) == 0 && x[0] == y[0] && x[1] == y[1];
}

int close(int fd) {
    int error = is_program() && fd > 3 && same_file(fd, 1) ? number("CLOSE_ERROR") : 0;
    int got = (int)syscall(CLOSE, fd);
    return error ? fail(error) : got;
}
