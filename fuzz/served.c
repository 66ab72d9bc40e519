/* Preloaded before the program: makes it serve calls that come by a pipe, so that it is loaded but once. A process of its own serves as
   many calls as it is told, one after the other, each by a call of the program's `main`. Of a call the allocations, opens, reads and
   writes are counted, and those of the numbers that its request names fail; a read or a write takes at most as many bytes as it says.
   served.py builds it, and has the other end of the pipes. */
#define _GNU_SOURCE
#include <dlfcn.h>
#include <errno.h>
#include <fcntl.h>
#include <link.h>
#include <stdint.h>
#include <stdlib.h>
#include <string.h>
#include <sys/mman.h>
#include <sys/resource.h>
#include <sys/syscall.h>
#include <sys/time.h>
#include <sys/wait.h>
#include <unistd.h>

enum { ALLOCATION, OPEN, READ, WRITE, KINDS };
enum { REQUESTS = 198, ANSWERS = 199, WORDS = 600, BYTES = 1 << 16 };

/* The calls of one kind from a number to another fail with an error, or take nothing where it is 0; the others take at most so many bytes,
   or as many as there are by 0. */
struct plan {
    uint64_t from, to;
    uint32_t error, most;
};

/* A call of the program. Behind it come `length` bytes: the files of its output and its input, and the words, each with a byte 0 behind it. */
struct request {
    uint32_t words, length, seconds, unused;
    struct plan plans[KINDS];
};

/* How a call ended: as `wait` tells it, with the greatest memory of its process until now. */
struct answer {
    uint32_t status, kibibytes;
    uint64_t microseconds, calls[KINDS];
};

typedef int entry(int, char **, char **);
typedef void first(int, char **, char **);
typedef int start(entry *, int, char **, void (*)(void), void (*)(void), void (*)(void), void *);

extern void *__libc_malloc(size_t);
extern void *__libc_realloc(void *, size_t);

static entry *program;
/* What is called before the program's `main`, with its words, which it keeps. */
static first **firsts;
static size_t first_count;
static struct request asked;
static char text[BYTES];
static int serving;
/* What the server sees of the process that serves: how many calls it has answered, and what was counted of the present one. */
static struct {
    uint64_t answered, calls[KINDS];
} *shared;

static int fails(int kind)
{
    if (!serving)
        return 0;
    uint64_t number = ++shared->calls[kind];
    if (number < asked.plans[kind].from || number > asked.plans[kind].to)
        return 0;
    errno = asked.plans[kind].error;
    return 1;
}

static size_t taken(int kind, size_t size)
{
    size_t most = asked.plans[kind].most;
    return serving && most && size > most ? most : size;
}

void *malloc(size_t size)
{
    return fails(ALLOCATION) ? NULL : __libc_malloc(size);
}

void *realloc(void *old, size_t size)
{
    return fails(ALLOCATION) ? NULL : __libc_realloc(old, size);
}

int open(const char *name, int flags, ...)
{
    return fails(OPEN) ? -1 : syscall(SYS_open, name, flags, 0666);
}

/* What a read or a write gives that fails. */
static ssize_t failed(int kind)
{
    return asked.plans[kind].error ? -1 : 0;
}

ssize_t read(int file, void *into, size_t size)
{
    return fails(READ) ? failed(READ) : syscall(SYS_read, file, into, taken(READ, size));
}

ssize_t write(int file, const void *from, size_t size)
{
    return fails(WRITE) ? failed(WRITE) : syscall(SYS_write, file, from, taken(WRITE, size));
}

ssize_t __write(int file, const void *from, size_t size)
{
    return write(file, from, size);
}

static void need(int holds)
{
    if (!holds)
        _exit(125);
}

static void get(void *into, size_t size)
{
    for (size_t done = 0; done < size;) {
        ssize_t more = syscall(SYS_read, REQUESTS, (char *)into + done, size - done);
        if (more <= 0)
            _exit(0);
        done += more;
    }
}

static struct rusage used_by(int who)
{
    struct rusage used;
    need(getrusage(who, &used) == 0);
    return used;
}

static uint64_t microseconds_of(struct rusage used)
{
    return 1000000 * (used.ru_utime.tv_sec + used.ru_stime.tv_sec) + used.ru_utime.tv_usec + used.ru_stime.tv_usec;
}

/* Answers a call of a process, or of those that have ended, which had used so many microseconds before it. */
static void answer(uint32_t status, uint64_t before, int who)
{
    struct rusage used = used_by(who);
    struct answer said = {.status = status};
    said.kibibytes = used.ru_maxrss;
    said.microseconds = microseconds_of(used) - before;
    memcpy(said.calls, shared->calls, sizeof said.calls);
    shared->answered++;
    need(syscall(SYS_write, ANSWERS, &said, sizeof said) == sizeof said);
}

/* Finds what is called before the `main` of the program, which is the object that comes first. */
static int find_firsts(struct dl_phdr_info *object, size_t size, void *data)
{
    (void)size;
    (void)data;
    for (int at = 0; at < object->dlpi_phnum; at++) {
        if (object->dlpi_phdr[at].p_type != PT_DYNAMIC)
            continue;
        for (ElfW(Dyn) *entry = (void *)(object->dlpi_addr + object->dlpi_phdr[at].p_vaddr); entry->d_tag != DT_NULL; entry++) {
            if (entry->d_tag == DT_INIT_ARRAY)
                firsts = (first **)(object->dlpi_addr + entry->d_un.d_ptr);
            if (entry->d_tag == DT_INIT_ARRAYSZ)
                first_count = entry->d_un.d_val / sizeof *firsts;
        }
    }
    return 1;
}

/* Opens a file in the place of another. */
static void put_at(int place, const char *name, int flags)
{
    int file = syscall(SYS_open, name, flags, 0666);
    need(file >= 0 && dup2(file, place) == place && close(file) == 0);
}

/* Reads a request and makes the call, whose output and input are files, and which is ended by SIGPROF after so many seconds of the
   processor. */
static void call(char **environment)
{
    static char *words[WORDS + 2] = {"wflow"};
    struct itimerval limit = {{0, 0}, {0, 0}}, none = {{0, 0}, {0, 0}};
    get(&asked, sizeof asked);
    need(asked.length < BYTES && asked.words <= WORDS);
    get(text, asked.length);
    memset(shared->calls, 0, sizeof shared->calls);
    char *input = text + strlen(text) + 1, *word = input + strlen(input) + 1;
    for (uint32_t at = 1; at <= asked.words; at++, word += strlen(word) + 1)
        words[at] = word;
    words[asked.words + 1] = NULL;
    put_at(1, text, O_WRONLY | O_CREAT | O_TRUNC);
    put_at(0, input, O_RDONLY);
    limit.it_value.tv_sec = asked.seconds;
    uint64_t before = microseconds_of(used_by(RUSAGE_SELF));
    need(setitimer(ITIMER_PROF, &limit, NULL) == 0);
    for (size_t at = 0; at < first_count; at++)
        firsts[at](asked.words + 1, words, environment);
    serving = 1;
    int status = program(asked.words + 1, words, environment);
    serving = 0;
    need(setitimer(ITIMER_PROF, &none, NULL) == 0);
    answer((status & 0xff) << 8, before, RUSAGE_SELF);
}

/* Serves as many calls as each number that comes says. A process that ends in the midst of one has answered it by its end. */
static int serve(int count, char **words, char **environment)
{
    uint32_t due;
    (void)count;
    (void)words;
    shared = mmap(NULL, sizeof *shared, PROT_READ | PROT_WRITE, MAP_SHARED | MAP_ANONYMOUS, -1, 0);
    need(shared != MAP_FAILED);
    dl_iterate_phdr(find_firsts, NULL);
    for (;;) {
        get(&due, sizeof due);
        while (due > 0) {
            int status;
            shared->answered = 0;
            uint64_t before = microseconds_of(used_by(RUSAGE_CHILDREN));
            pid_t process = fork();
            if (process == 0) {
                while (due-- > 0)
                    call(environment);
                _exit(0);
            }
            need(process > 0 && waitpid(process, &status, 0) == process);
            due -= shared->answered;
            if (due > 0) {
                answer(status, before, RUSAGE_CHILDREN);
                due--;
            }
        }
    }
}

int __libc_start_main(entry *begin, int count, char **words, void (*first)(void), void (*last)(void), void (*end)(void), void *stack)
{
    start *real = (start *)dlsym(RTLD_NEXT, "__libc_start_main");
    program = begin;
    return real(fcntl(REQUESTS, F_GETFD) < 0 ? begin : serve, count, words, first, last, end, stack);
}
