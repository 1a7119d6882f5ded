/* A library to preload: it refuses one call of a program, so that each growth, read and write can fail in turn.
 *
 * The environment says what happens; a number counts from 1, and nothing happens where it is absent:
 *   REFUSE_GROWTH=N     the Nth malloc or realloc gives no memory
 *   FAIL_READ=N         the Nth read fails with EIO
 *   INTERRUPT_READ=N    the Nth read is interrupted
 *   READ_AT_MOST=N      each read gives at most N bytes
 *   FAIL_WRITE=N        the Nth write fails with ENOSPC
 *   INTERRUPT_WRITE=N   the Nth write is interrupted
 *   NO_WRITE=N          the Nth write takes no byte
 *   WRITE_AT_MOST=N     each write takes at most N bytes
 *   REPORT=FILE         at the end FILE holds `growths reads writes reads-after-failure writes-after-failure
 *                       bytes-asked-for`
 *   SERVE=IN,OUT,ERROR  the program runs once for each plan that standard input gives, as `struct plan` has it, in a
 *                       process of its own, which begins here; these open files are its streams, and each run finds
 *                       the first at its start and the others empty. Standard output gets a `struct answer` of each
 * Writes to standard error are left alone, so that what the program says of the failure is seen.
 */
#define _GNU_SOURCE
#include <errno.h>
#include <fcntl.h>
#include <stdio.h>
#include <stdlib.h>
#include <string.h>
#include <sys/mman.h>
#include <sys/syscall.h>
#include <sys/wait.h>
#include <unistd.h>

extern void *__libc_malloc(size_t size);
extern void *__libc_realloc(void *at, size_t size);

/* Seconds that a served run may take. */
#define SECONDS 120

static struct plan {
    long refuse_growth, fail_read, interrupt_read, read_at_most, fail_write, interrupt_write, no_write, write_at_most;
} plan;

static struct counts {
    long growths, reads, writes, late_reads, late_writes, asked;
} counts;

/* What a served run ended with, as waitpid has it, and what it counted. */
struct answer {
    long status;
    struct counts counts;
};

static struct counts *shared;
static const char *report;
static int is_ready;

static long number(const char *name)
{
    const char *text = getenv(name);
    return text ? atol(text) : 0;
}

static void exit_if(int failed)
{
    if (failed)
        _exit(99);
}

/* Gives the process of a run its streams. */
static void take_streams(const int *files)
{
    for (int stream = 0; stream < 3; stream++)
        exit_if(dup2(files[stream], stream) < 0 || close(files[stream]) < 0);
    alarm(SECONDS);
}

/* Returns in a process of its own for each plan, and ends where there are no more. */
static void serve(const char *names)
{
    int files[3];
    struct answer answer;
    exit_if(sscanf(names, "%d,%d,%d", files, files + 1, files + 2) != 3);
    shared = mmap(NULL, sizeof *shared, PROT_READ | PROT_WRITE, MAP_SHARED | MAP_ANONYMOUS, -1, 0);
    exit_if(shared == MAP_FAILED);
    while (syscall(SYS_read, 0, &plan, sizeof plan) == sizeof plan) {
        int status;
        memset(shared, 0, sizeof *shared);
        for (int stream = 0; stream < 3; stream++)
            exit_if(lseek(files[stream], 0, SEEK_SET) != 0 || (stream && ftruncate(files[stream], 0)));
        const pid_t child = fork();
        if (child == 0) {
            take_streams(files);
            return;
        }
        exit_if(child < 0 || waitpid(child, &status, 0) != child);
        answer.status = status;
        answer.counts = *shared;
        exit_if(syscall(SYS_write, 1, &answer, sizeof answer) != sizeof answer);
    }
    _exit(0);
}

__attribute__((constructor)) static void begin(void)
{
    plan.refuse_growth = number("REFUSE_GROWTH");
    plan.fail_read = number("FAIL_READ");
    plan.interrupt_read = number("INTERRUPT_READ");
    plan.read_at_most = number("READ_AT_MOST");
    plan.fail_write = number("FAIL_WRITE");
    plan.interrupt_write = number("INTERRUPT_WRITE");
    plan.no_write = number("NO_WRITE");
    plan.write_at_most = number("WRITE_AT_MOST");
    report = getenv("REPORT");
    if (getenv("SERVE"))
        serve(getenv("SERVE"));
    is_ready = 1;
}

__attribute__((destructor)) static void end(void)
{
    char line[160];
    is_ready = 0;
    if (shared)
        *shared = counts;
    if (!report)
        return;
    int length = snprintf(line, sizeof line, "%ld %ld %ld %ld %ld %ld\n", counts.growths, counts.reads, counts.writes,
                          counts.late_reads, counts.late_writes, counts.asked);
    int file = syscall(SYS_openat, AT_FDCWD, report, O_WRONLY | O_CREAT | O_TRUNC, 0600);
    if (file >= 0) {
        syscall(SYS_write, file, line, (size_t)length);
        syscall(SYS_close, file);
    }
}

/* Whether this growth is the one to refuse. */
static int is_refused(size_t size)
{
    if (!is_ready)
        return 0;
    counts.asked += size;
    if (++counts.growths != plan.refuse_growth)
        return 0;
    errno = ENOMEM;
    return 1;
}

void *malloc(size_t size)
{
    if (is_refused(size))
        return NULL;
    return __libc_malloc(size);
}

void *realloc(void *at, size_t size)
{
    if (is_refused(size))
        return NULL;
    return __libc_realloc(at, size);
}

ssize_t read(int file, void *into, size_t room)
{
    const long now = ++counts.reads;
    if ((plan.fail_read && now > plan.fail_read) || (plan.interrupt_read && now > plan.interrupt_read))
        counts.late_reads++;
    if (now == plan.fail_read || now == plan.interrupt_read) {
        errno = now == plan.fail_read ? EIO : EINTR;
        return -1;
    }
    if (plan.read_at_most && room > (size_t)plan.read_at_most)
        room = (size_t)plan.read_at_most;
    return syscall(SYS_read, file, into, room);
}

static ssize_t put(int file, const void *from, size_t count)
{
    if (file == 2)
        return syscall(SYS_write, file, from, count);
    const long now = ++counts.writes;
    if ((plan.fail_write && now > plan.fail_write) || (plan.interrupt_write && now > plan.interrupt_write)
        || (plan.no_write && now > plan.no_write))
        counts.late_writes++;
    if (now == plan.fail_write || now == plan.interrupt_write) {
        errno = now == plan.fail_write ? ENOSPC : EINTR;
        return -1;
    }
    if (now == plan.no_write)
        return 0;
    if (plan.write_at_most && count > (size_t)plan.write_at_most)
        count = (size_t)plan.write_at_most;
    return syscall(SYS_write, file, from, count);
}

ssize_t write(int file, const void *from, size_t count) { return put(file, from, count); }
ssize_t __write(int file, const void *from, size_t count) { return put(file, from, count); }
