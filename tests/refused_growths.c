/* Refuses requests for memory, to see how a program answers that.
 *
 * Loaded before a program (LD_PRELOAD), it counts the program's calls of malloc, calloc and realloc from its
 * start on. REFUSE_FROM names the first call to refuse, counted from 1, and REFUSE_TO the last one; a missing
 * REFUSE_TO means that one call, and `end` each later one too. A refused call gives no memory and sets ENOMEM.
 * A call of realloc for no more than there is counts for nothing: where a list is to have no room for more, and that
 * is refused, it keeps its room.
 * For each refusal a byte goes to the file descriptor 9, so that the caller knows whether there was one. What the
 * program starts isn't loaded behind it.
 *
 * Under REFUSE_EACH, which is `one` or `end`, it counts the calls of one part of the program alone, which begins where
 * the program asks for BEGINS bytes and ends where it asks for ENDS bytes, as `counts scripted` does around `drive`.
 * Where the part begins the program goes on in a process of its own for each of its requests, one after the other: in
 * the first process the first request is refused, in the next the second, and so on up to a process that meets no
 * refusal; under `end` each later request of the part too. For each process this writes a line to standard output:
 * the number of the request, the process's status (128 and the signal that ended it), how many requests were refused,
 * and the length of what the process wrote to its own standard output, which stands behind the line.
 */
#include <errno.h>
#include <limits.h>
#include <malloc.h>
#include <stddef.h>
#include <stdio.h>
#include <stdlib.h>
#include <string.h>
#include <sys/mman.h>
#include <sys/wait.h>
#include <unistd.h>

enum { NOTES = 9, BEGINS = 7340033, ENDS = 7340035, SECONDS = 20, MOST = 1 << 20 };

/* The names under which the GNU C library keeps its own functions. */
extern void *__libc_malloc(size_t size);
extern void *__libc_calloc(size_t count, size_t size);
extern void *__libc_realloc(void *memory, size_t size);

static long first = LONG_MAX;
static long last = LONG_MAX;
static long calls = 0;
static int started = 0;

/* Under REFUSE_EACH: whether it is `end`, how many requests were refused, which the processes share, and what one of
 * them wrote. */
static const char *each = NULL;
static volatile long *refusals = NULL;
static char written[MOST];

/* Ends the program where the system refuses what is needed to go on. */
static void give_up(const char *what)
{
    dprintf(STDERR_FILENO, "refused_growths: no %s\n", what);
    _exit(1);
}

/* Runs behind the loader's own requests, and before the program's first. */
__attribute__((constructor)) static void start(void)
{
    const char *from = getenv("REFUSE_FROM");
    const char *to = getenv("REFUSE_TO");
    if (from != NULL) {
        first = atol(from);
        last = first;
    }
    if (to != NULL)
        last = strcmp(to, "end") == 0 ? LONG_MAX : atol(to);
    unsetenv("LD_PRELOAD");
    each = getenv("REFUSE_EACH");
    if (each != NULL) {
        refusals = mmap(NULL, sizeof *refusals, PROT_READ | PROT_WRITE, MAP_SHARED | MAP_ANONYMOUS, -1, 0);
        if (refusals == MAP_FAILED)
            give_up("shared memory");
    }
    started = each == NULL;
}

/* What the process writes into the pipe, up to its end; the length. */
static size_t read_all(int from)
{
    size_t length = 0;
    ssize_t count;
    while (length < MOST && (count = read(from, written + length, MOST - length)) > 0)
        length += (size_t)count;
    return length;
}

static void write_all(const char *text, size_t length)
{
    while (length > 0) {
        ssize_t count = write(STDOUT_FILENO, text, length);
        if (count <= 0)
            give_up("output");
        text += count;
        length -= (size_t)count;
    }
}

/* Waits for the process that writes into the pipe, and writes what came of it. */
static void tell_process(pid_t process, int from, long number)
{
    char line[128];
    int status = 0;
    size_t length = read_all(from);
    close(from);
    if (waitpid(process, &status, 0) != process)
        give_up("status");
    status = WIFSIGNALED(status) ? 128 + WTERMSIG(status) : WEXITSTATUS(status);
    write_all(line, (size_t)snprintf(line, sizeof line, "%ld %d %ld %zu\n", number, status, *refusals, length));
    write_all(written, length);
}

/* Returns in a process for each request, and ends this one behind them. */
static void go_on_in_each(void)
{
    for (long number = 1; number == 1 || *refusals > 0; number++) {
        int ends[2];
        *refusals = 0;
        if (pipe(ends) != 0)
            give_up("pipe");
        pid_t process = fork();
        if (process < 0)
            give_up("process");
        if (process == 0) {
            dup2(ends[1], STDOUT_FILENO);
            close(ends[0]);
            close(ends[1]);
            alarm(SECONDS);
            first = number;
            last = strcmp(each, "end") == 0 ? LONG_MAX : number;
            started = 1;
            return;
        }
        close(ends[1]);
        tell_process(process, ends[0], number);
    }
    _exit(0);
}

/* Looks whether the request says that the part begins or ends. */
static int marks(size_t size)
{
    if (each == NULL || (size != BEGINS && size != ENDS))
        return 0;
    if (size == ENDS)
        started = 0;
    else if (!started)
        go_on_in_each();
    return 1;
}

static int refused(void)
{
    if (!started)
        return 0;
    calls++;
    if (calls < first || calls > last)
        return 0;
    if (refusals != NULL)
        ++*refusals;
    else if (write(NOTES, "r", 1) < 0) {
        /* Nobody wants the note. */
    }
    errno = ENOMEM;
    return 1;
}

void *malloc(size_t size)
{
    return !marks(size) && refused() ? NULL : __libc_malloc(size);
}

void *calloc(size_t count, size_t size)
{
    return refused() ? NULL : __libc_calloc(count, size);
}

void *realloc(void *memory, size_t size)
{
    if (memory != NULL && size > 0 && malloc_usable_size(memory) >= size)
        return __libc_realloc(memory, size);
    return refused() ? NULL : __libc_realloc(memory, size);
}
