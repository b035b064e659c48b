/* Reads the seccomp filters of one thread, and lets it go on whatever happens.

   A child reads the thread. When a process ends, the kernel lets go of all that it traces. So an alarm that ends the
   child is enough for a thread that doesn't stop, as one in vfork(). */
#include "read_thread.h"

#include <errno.h>
#include <signal.h>
#include <stdio.h>
#include <stdlib.h>
#include <string.h>
#include <sys/ptrace.h>
#include <sys/wait.h>
#include <unistd.h>

#ifndef PTRACE_SECCOMP_GET_FILTER
#define PTRACE_SECCOMP_GET_FILTER 0x420c
#endif

enum { LINE = 256, SECONDS = 2, SYS_ADMIN = 21 };

/* What the child writes first. Where the thread was read, the filters follow, each with its length before it. */
struct head {
    enum reading reading;
    long count, told;
    char why[WHY];
};

void end_if(int failed, const char *what)
{
    if (failed) {
        perror(what);
        exit(1);
    }
}

void *grown(void *array, long count, size_t size)
{
    array = realloc(array, (count + 1) * size);
    end_if(!array, "memory");
    return array;
}

/* What stands behind a key in the file `status` of a thread: a number in this base, or -1 where it isn't there. */
static long long in_status(const char *thread, const char *key, int base)
{
    char line[LINE];
    long long found = -1;
    snprintf(line, sizeof line, "/proc/%s/status", thread);
    FILE *status = fopen(line, "r");
    while (status && fgets(line, sizeof line, status))
        if (!strncmp(line, key, strlen(key)))
            found = strtoll(line + strlen(key), NULL, base);
    if (status)
        fclose(status);
    return found;
}

int has_ended(pid_t thread)
{
    char line[LINE], state = 'Z';
    snprintf(line, sizeof line, "/proc/%d/status", thread);
    FILE *status = fopen(line, "r");
    while (status && fgets(line, sizeof line, status))
        sscanf(line, "State: %c", &state);
    if (status)
        fclose(status);
    return state == 'Z' || state == 'X';
}

/* Says why the thread can't be read, where `what` failed. */
static void say_why(struct head *head, pid_t thread, const char *what)
{
    int error = errno, is_refused = error == EPERM || error == EACCES;
    char number[32];
    snprintf(number, sizeof number, "%d", thread);
    long long tracer = in_status(number, "TracerPid:", 10);
    head->reading = has_ended(thread) ? ENDED : UNREAD;
    if (is_refused && tracer > 0 && tracer != getpid())
        snprintf(head->why, WHY, "is traced by %lld", tracer);
    else if (is_refused && !(in_status("self", "CapEff:", 16) >> SYS_ADMIN & 1))
        snprintf(head->why, WHY, "needs CAP_SYS_ADMIN");
    else if (error == EACCES && in_status("self", "Seccomp:", 10) > 0)
        snprintf(head->why, WHY, "needs a reader that is under no filter itself");
    else
        snprintf(head->why, WHY, "%s: %s", what, strerror(error));
}

/* Stops the thread. Whether that went well. `signal` gets one that stopped it before us, to be handed on to it. */
static int is_stopped(pid_t thread, struct head *head, long *signal)
{
    int status = 0;
    if (ptrace(PTRACE_SEIZE, thread, 0, 0) != 0)
        say_why(head, thread, "seize");
    else if (ptrace(PTRACE_INTERRUPT, thread, 0, 0) != 0 && errno != ESRCH)
        say_why(head, thread, "interrupt");
    else if (waitpid(thread, &status, __WALL) != thread)
        say_why(head, thread, "wait");
    else if (!WIFSTOPPED(status))
        head->reading = ENDED;
    else {
        *signal = status >> 16 ? 0 : WSTOPSIG(status);
        return 1;
    }
    return 0;
}

/* Reads the filters of the stopped thread, the oldest first. */
static struct sock_fprog *read_stack(pid_t thread, struct head *head)
{
    struct sock_fprog *filters = NULL;
    char number[32];
    snprintf(number, sizeof number, "%d", thread);
    long long mode = in_status(number, "Seccomp:", 10);
    if (mode < 0) {
        snprintf(head->why, WHY, "/proc doesn't say whether it has filters");
        return NULL;
    }
    /* Where /proc doesn't say how many there are, each is asked for until there is none. */
    head->told = mode == 2 ? in_status(number, "Seccomp_filters:", 10) : 0;
    head->reading = READ;
    while (head->told != 0) {
        long length = ptrace(PTRACE_SECCOMP_GET_FILTER, thread, head->count, NULL);
        if (length < 0 && errno == ENOENT)
            break;
        struct sock_filter *code = length < 0 ? NULL : grown(NULL, length, sizeof *code);
        if (!code || ptrace(PTRACE_SECCOMP_GET_FILTER, thread, head->count, code) != length) {
            say_why(head, thread, "read");
            break;
        }
        filters = grown(filters, head->count, sizeof *filters);
        filters[head->count++] = (struct sock_fprog){length, code};
    }
    return filters;
}

/* What the child does: reads the thread, lets it go on, and then writes what it has read. The alarm is for the stop:
   what comes after it waits for nobody. */
static void read_in_child(pid_t thread, FILE *out)
{
    struct head head = {UNREAD, 0, 0, ""};
    struct sock_fprog *filters = NULL;
    long stopped_by = 0;
    signal(SIGALRM, SIG_DFL);
    sigset_t alarms;
    sigemptyset(&alarms);
    sigaddset(&alarms, SIGALRM);
    sigprocmask(SIG_UNBLOCK, &alarms, NULL);
    alarm(SECONDS);
    if (is_stopped(thread, &head, &stopped_by)) {
        alarm(0);
        filters = read_stack(thread, &head);
        if (ptrace(PTRACE_DETACH, thread, 0, stopped_by) != 0 && errno != ESRCH)
            say_why(&head, thread, "detach");
    }
    alarm(0);
    fwrite(&head, sizeof head, 1, out);
    for (long at = 0; head.reading == READ && at < head.count; at++) {
        fwrite(&filters[at].len, sizeof filters[at].len, 1, out);
        fwrite(filters[at].filter, sizeof *filters[at].filter, filters[at].len, out);
    }
    _exit(fclose(out) != 0);
}

/* Reads what the child has written. Whether it is whole. */
static int is_whole(FILE *in, struct head *head, struct stack *stack)
{
    if (fread(head, sizeof *head, 1, in) != 1)
        return 0;
    *stack = (struct stack){0, head->told, NULL};
    for (long at = 0; head->reading == READ && at < head->count; at++) {
        unsigned short length;
        if (fread(&length, sizeof length, 1, in) != 1)
            return 0;
        struct sock_filter *code = grown(NULL, length, sizeof *code);
        stack->filters = grown(stack->filters, stack->count, sizeof *stack->filters);
        stack->filters[stack->count++] = (struct sock_fprog){length, code};
        if (fread(code, sizeof *code, length, in) != length)
            return 0;
    }
    return 1;
}

enum reading read_thread(pid_t thread, struct stack *stack, char why[WHY])
{
    int ends[2], status;
    struct head head;
    signal(SIGCHLD, SIG_DFL);
    end_if(pipe(ends) != 0, "pipe");
    fflush(NULL);
    pid_t child = fork();
    end_if(child < 0, "fork");
    if (child == 0) {
        close(ends[0]);
        FILE *out = fdopen(ends[1], "wb");
        end_if(!out, "pipe");
        read_in_child(thread, out);
    }
    close(ends[1]);
    FILE *in = fdopen(ends[0], "rb");
    end_if(!in, "pipe");
    int whole = is_whole(in, &head, stack);
    fclose(in);
    end_if(waitpid(child, &status, 0) != child, "wait");
    if (whole && WIFEXITED(status) && WEXITSTATUS(status) == 0) {
        memcpy(why, head.why, WHY);
        return head.reading;
    }
    if (WIFSIGNALED(status) && WTERMSIG(status) == SIGALRM)
        snprintf(why, WHY, "did not stop within %d s", SECONDS);
    else
        snprintf(why, WHY, "the child that reads it has failed");
    return has_ended(thread) ? ENDED : UNREAD;
}
