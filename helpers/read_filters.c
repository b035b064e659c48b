/* Reads back the seccomp filters of a thread, and writes them to PREFIX01.bpf, PREFIX02.bpf and so on, oldest first.

   cc -O2 -o read_filters read_filters.c read_thread.c
   ./read_filters THREAD [PREFIX]
   ./read_filters --all-threads PROCESS [PREFIX]

   With --all-threads it reads all threads of a process. For each set of filters that differs it makes a folder
   PREFIXthread-N, where N is the first thread that has this set, with the filters in 01.bpf and so on (none where these
   threads have no filter). A line for each folder says how many filters are in it, and which threads have them.

   It must run as root and under no seccomp filter itself, on a kernel with CONFIG_CHECKPOINT_RESTORE. A file or folder
   that is there already is left alone: the tool fails. It fails also if it read another number of filters than /proc
   has (since Linux 5.9).

   One thread is stopped at a time, while it is read. It gets no signal, but some calls in which it may wait return
   early, as after a signal with a handler. epoll_wait, epoll_pwait, semop, semtimedop, sigtimedwait, sigwaitinfo,
   io_getevents and calls of sockets with a timeout (SO_RCVTIMEO, SO_SNDTIMEO) return -1 with EINTR, or what they have
   done so far. Others go on, such as poll, select, nanosleep, read, accept, recv without a timeout, futex and waitpid.

   A thread that doesn't stop within 2 seconds, as one in vfork(), is let go. Each thread that can't be read gets a
   line on standard error that says why. The others are read, and the status is 1. */
#include <dirent.h>
#include <stdio.h>
#include <stdlib.h>
#include <string.h>
#include <sys/stat.h>

#include "read_thread.h"

/* How long a name may be, and how often the threads of a process are looked for. */
enum { NAME = 4096, LOOKS = 100 };

/* A set of filters, and the threads that have it, in the order in which they were read. */
struct group {
    struct stack stack;
    long count;
    pid_t *threads;
};

/* The threads of a process that were met, the sets of filters that they have, and how many threads weren't read. */
struct process {
    long count, groups_count, unread;
    pid_t *threads;
    struct group *groups;
};

/* Whether /proc has another number of filters. Says so then. */
static int is_other_number(pid_t thread, const struct stack *stack)
{
    int is_other = stack->told >= 0 && stack->told != stack->count;
    if (is_other)
        fprintf(stderr, "thread %d: /proc tells of %ld filters, %ld were read\n", thread, stack->told, stack->count);
    return is_other;
}

static int is_same(const struct stack *one, const struct stack *other)
{
    if (one->count != other->count || one->told != other->told)
        return 0;
    for (long at = 0; at < one->count; at++) {
        const struct sock_fprog *left = &one->filters[at], *right = &other->filters[at];
        if (left->len != right->len || memcmp(left->filter, right->filter, left->len * sizeof *left->filter))
            return 0;
    }
    return 1;
}

/* Adds a thread to the group that has its filters, or to a new one behind the others. Gives the groups. */
static struct group *add_to_groups(struct group *groups, long *count, pid_t thread, struct stack stack)
{
    long at = 0;
    while (at < *count && !is_same(&groups[at].stack, &stack))
        at++;
    if (at == *count) {
        groups = grown(groups, *count, sizeof *groups);
        groups[(*count)++] = (struct group){stack, 0, NULL};
    } else {
        for (long filter = 0; filter < stack.count; filter++)
            free(stack.filters[filter].filter);
        free(stack.filters);
    }
    struct group *group = &groups[at];
    group->threads = grown(group->threads, group->count, sizeof *group->threads);
    group->threads[group->count++] = thread;
    return groups;
}

static void write_stack(const char *prefix, const struct stack *stack)
{
    char name[NAME];
    for (long at = 0; at < stack->count; at++) {
        const struct sock_fprog *filter = &stack->filters[at];
        snprintf(name, sizeof name, "%s%02ld.bpf", prefix, at + 1);
        FILE *file = fopen(name, "wbx");
        size_t written = file ? fwrite(filter->filter, sizeof *filter->filter, filter->len, file) : 0;
        end_if(!file || written != filter->len || fclose(file), name);
    }
}

/* Writes a group to its folder, and prints its line. */
static void write_group(const char *prefix, const struct group *group)
{
    char name[NAME];
    snprintf(name, sizeof name, "%sthread-%d", prefix, group->threads[0]);
    end_if(mkdir(name, 0777) != 0, name);
    printf("%s: %ld filters, of threads", name, group->stack.count);
    for (long at = 0; at < group->count; at++)
        printf(" %d", group->threads[at]);
    printf("\n");
    strncat(name, "/", sizeof name - strlen(name) - 1);
    write_stack(name, &group->stack);
}

static int has_thread(const struct process *process, pid_t thread)
{
    long count = process->count;
    while (count > 0 && process->threads[count - 1] != thread)
        count--;
    return count > 0;
}

static void say(pid_t thread, const char *why)
{
    fprintf(stderr, "thread %d: %s\n", thread, why);
}

/* Reads a thread that wasn't met yet, and adds it to its group. */
static void meet(struct process *process, pid_t thread)
{
    struct stack stack;
    char why[WHY];
    process->threads = grown(process->threads, process->count, sizeof *process->threads);
    process->threads[process->count++] = thread;
    enum reading reading = read_thread(thread, &stack, why);
    if (reading == READ)
        process->groups = add_to_groups(process->groups, &process->groups_count, thread, stack);
    if (reading == UNREAD) {
        say(thread, why);
        process->unread++;
    }
}

/* Reads the threads of a process that weren't met yet, or says that it is too late. Gives how many there are. */
static long meet_more(struct process *process, pid_t id, int is_too_late)
{
    char name[64];
    long before = process->count, late = 0;
    snprintf(name, sizeof name, "/proc/%d/task", id);
    DIR *folder = opendir(name);
    end_if(!folder && before == 0, name);
    for (struct dirent *entry; folder && (entry = readdir(folder));) {
        pid_t thread = atoi(entry->d_name);
        if (thread <= 0 || has_thread(process, thread) || has_ended(thread))
            continue;
        if (is_too_late) {
            say(thread, "started too late: the process goes on starting threads");
            late++;
        } else
            meet(process, thread);
    }
    if (folder)
        closedir(folder);
    process->unread += late;
    return process->count - before + late;
}

static int by_thread(const void *one, const void *other)
{
    return *(const pid_t *)one - *(const pid_t *)other;
}

static int by_first_thread(const void *one, const void *other)
{
    return by_thread(((const struct group *)one)->threads, ((const struct group *)other)->threads);
}

static int read_process(pid_t id, const char *prefix)
{
    struct process process = {0, 0, 0, NULL, NULL};
    /* A thread may start another one while others are read: so look again until there is none that wasn't met. */
    for (int look = 1; look <= LOOKS && meet_more(&process, id, look == LOOKS); look++)
        ;
    for (long at = 0; at < process.groups_count; at++)
        qsort(process.groups[at].threads, process.groups[at].count, sizeof *process.groups[at].threads, by_thread);
    qsort(process.groups, process.groups_count, sizeof *process.groups, by_first_thread);
    int failed = process.unread > 0;
    for (long at = 0; at < process.groups_count; at++) {
        write_group(prefix, &process.groups[at]);
        failed |= is_other_number(process.groups[at].threads[0], &process.groups[at].stack);
    }
    if (process.groups_count == 0 && process.unread == 0) {
        fprintf(stderr, "no thread runs\n");
        failed = 1;
    }
    return failed;
}

static int read_one(pid_t thread, const char *prefix)
{
    struct stack stack;
    char why[WHY];
    enum reading reading = read_thread(thread, &stack, why);
    if (reading != READ) {
        say(thread, reading == ENDED ? "there is no such thread" : why);
        return 1;
    }
    write_stack(prefix, &stack);
    printf("%ld filters\n", stack.count);
    return is_other_number(thread, &stack);
}

int main(int count, char **words)
{
    int is_all = count > 1 && !strcmp(words[1], "--all-threads");
    int left = count - 1 - is_all;
    pid_t id = left == 1 || left == 2 ? atoi(words[1 + is_all]) : 0;
    if (id <= 0) {
        fprintf(stderr, "usage: %s THREAD [PREFIX]\n       %s --all-threads PROCESS [PREFIX]\n", words[0], words[0]);
        return 2;
    }
    const char *prefix = left == 2 ? words[2 + is_all] : "";
    return is_all ? read_process(id, prefix) : read_one(id, prefix);
}
