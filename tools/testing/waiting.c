/* A process with a thread for each word, which says how it waits, for tools/test read_filters. Of each it prints the
   word, the thread's number and the call in which it waits (`traced`: who traces it). Later it prints what a call has
   returned that ought to wait on. */
#define _GNU_SOURCE
#include <errno.h>
#include <poll.h>
#include <pthread.h>
#include <signal.h>
#include <stdio.h>
#include <string.h>
#include <sys/epoll.h>
#include <sys/prctl.h>
#include <sys/ptrace.h>
#include <sys/socket.h>
#include <sys/syscall.h>
#include <sys/time.h>
#include <unistd.h>

static void wait_for_ever(void)
{
    for (;;)
        pause();
}

static void tell(const char *word, long call)
{
    printf("%s %ld %ld\n", word, (long)syscall(SYS_gettid), call);
    fflush(stdout);
}

static void wait_in_vfork(void)
{
    if (vfork() == 0) {
        prctl(PR_SET_PDEATHSIG, SIGKILL);
        wait_for_ever();
    }
}

/* Has a child trace the thread. */
static void be_traced(void)
{
    int told[2];
    char byte;
    pid_t thread = syscall(SYS_gettid);
    if (pipe(told) != 0)
        return;
    pid_t tracer = fork();
    if (tracer == 0) {
        prctl(PR_SET_PDEATHSIG, SIGKILL);
        if (ptrace(PTRACE_SEIZE, thread, 0, 0) == 0 && write(told[1], "", 1) == 1)
            wait_for_ever();
        _exit(1);
    }
    if (read(told[0], &byte, 1) == 1)
        tell("traced", tracer);
}

/* Each thread starts the next one, and ends. */
static void *start_next(void *unused)
{
    pthread_t next;
    pthread_attr_t apart;
    pthread_attr_init(&apart);
    pthread_attr_setdetachstate(&apart, PTHREAD_CREATE_DETACHED);
    while (pthread_create(&next, &apart, start_next, unused) != 0)
        ;
    return NULL;
}

/* Waits in a call, and gives what that returned. */
static long wait_in(const char *word)
{
    struct timeval long_time = {1000, 0};
    struct epoll_event event;
    int ends[2], events = epoll_create1(0);
    char byte;
    if (events < 0 || socketpair(AF_UNIX, SOCK_STREAM, 0, ends) != 0)
        return -1;
    if (!strcmp(word, "epoll_wait")) {
        tell(word, SYS_epoll_wait);
        return epoll_wait(events, &event, 1, 1000000);
    }
    if (!strcmp(word, "poll")) {
        tell(word, SYS_poll);
        return poll(NULL, 0, 1000000);
    }
    if (!strcmp(word, "recv_timeout"))
        setsockopt(ends[0], SOL_SOCKET, SO_RCVTIMEO, &long_time, sizeof long_time);
    tell(word, SYS_recvfrom);
    return recv(ends[0], &byte, 1, 0);
}

static void *wait_as(void *given)
{
    const char *word = given;
    if (!strcmp(word, "vfork")) {
        tell(word, SYS_vfork);
        wait_in_vfork();
    } else if (!strcmp(word, "traced"))
        be_traced();
    else if (!strcmp(word, "pause"))
        tell(word, SYS_pause);
    else if (!strcmp(word, "starts")) {
        tell(word, 0);
        return start_next(NULL);
    } else {
        long result = wait_in(word);
        printf("%s %ld %s\n", word, result, errno == EINTR ? "EINTR" : strerror(errno));
        fflush(stdout);
    }
    wait_for_ever();
    return NULL;
}

int main(int count, char **words)
{
    pthread_t thread;
    for (int at = 1; at < count; at++)
        if (pthread_create(&thread, NULL, wait_as, words[at]) != 0)
            return 1;
    wait_for_ever();
}
