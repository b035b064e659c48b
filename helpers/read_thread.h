/* The seccomp filters of one thread: what read_thread.c gives. */
#include <linux/filter.h>
#include <stddef.h>
#include <sys/types.h>

/* The filters of a thread, the oldest first, and how many there are by /proc, or -1. */
struct stack {
    long count, told;
    struct sock_fprog *filters;
};

/* Whether a thread was read. That it ended before is no fault. */
enum reading { READ, ENDED, UNREAD };

/* The room for a text that says why a thread wasn't read. */
enum { WHY = 160 };

/* Reads the filters of a thread, which is stopped meanwhile. Takes 2 seconds at most, where the thread doesn't stop.
   Where it is UNREAD, `why` says why. */
enum reading read_thread(pid_t thread, struct stack *stack, char why[WHY]);

/* Whether a thread of /proc has ended, and only its process hasn't. */
int has_ended(pid_t thread);

void end_if(int failed, const char *what);

/* An array with room for one member more. */
void *grown(void *array, long count, size_t size);
