/* Asks the kernel what a stack of seccomp filters does to inputs, and carries out no call.

   cc -O2 -pthread -o ask_kernel helpers/ask_kernel.c && ./ask_kernel GUARD LISTENER FILE.. < INPUTS

   INPUTS has a line of 128 hexadecimal digits for each input, as `seccomp_audit eval --input` takes them. Each is
   answered by a line: THROUGH, TRACE N, USER_NOTIF, ERRNO N, TRAP N, KILL_THREAD, KILL_PROCESS, or UNTRIED and why.

   A thread of a child installs a guard filter first, which answers TRACE with the number GUARD to all calls, and then
   FILE.. in their order. So the kernel answers ALLOW and LOG, which are milder, by asking this tracer, which skips the
   call (THROUGH); each stricter answer is seen as it is. The thread enters the kernel by a harmless call, and the
   tracer puts the input in its registers, where the kernel looks before it asks the filters. USER_NOTIF is seen where
   the filter LISTENER, counted from 1, gives it (0: none); elsewhere it looks like ERRNO 38.

   It needs x86-64, Linux 5.9 or newer, and neither root nor a capability. It refuses to run under a filter. */
#define _GNU_SOURCE
#include <elf.h>
#include <errno.h>
#include <fcntl.h>
#include <linux/audit.h>
#include <linux/filter.h>
#include <linux/ptrace.h>
#include <linux/seccomp.h>
#include <poll.h>
#include <pthread.h>
#include <signal.h>
#include <stdint.h>
#include <stdio.h>
#include <stdlib.h>
#include <string.h>
#include <sys/ioctl.h>
#include <sys/mman.h>
#include <sys/prctl.h>
#include <sys/syscall.h>
#include <sys/user.h>
#include <sys/wait.h>
#include <unistd.h>

/* <sys/ptrace.h> can't be included beside <linux/ptrace.h>. */
extern long ptrace(int request, ...);

enum { FILTERS = 65, SECONDS = 20, SYSCALL_STOP = SIGTRAP | 0x80 };
enum { GETPID_64 = 39, GETPID_32 = 20, URETPROBE = 335, UPROBE = 336 };

/* Enters the kernel as x86-64 and as i386 do; behind each the tracer gets a SIGTRAP. */
extern char enter_64[], after_64[], enter_32[], after_32[];
__asm__(".text\nenter_64: syscall\nafter_64: int3\nenter_32: int $0x80\nafter_32: int3\n");

struct input {
    uint32_t nr, arch;
    uint64_t ip, args[6];
};

/* What the child reports. */
static struct {
    volatile int thread, installed, failed, listener;
} *told;

static struct sock_filter guard[1];
static struct sock_fprog filters[FILTERS];
static int count, listener;
static int go[2], commands[2], answers[2];

/* The traced thread, or 0, its process, and its registers between two calls. */
static pid_t thread, process;
static struct user_regs_struct idle;

static void end_if(int failed, const char *what)
{
    if (failed) {
        perror(what);
        exit(3);
    }
}

static void read_filter(const char *path, struct sock_fprog *filter)
{
    static struct sock_filter code[BPF_MAXINSNS + 1];
    FILE *file = fopen(path, "rb");
    end_if(!file, path);
    size_t length = fread(code, sizeof *code, BPF_MAXINSNS + 1, file);
    end_if(ferror(file) || fclose(file), path);
    filter->len = length;
    filter->filter = malloc(length * sizeof *code);
    end_if(!filter->filter, "memory");
    memcpy(filter->filter, code, length * sizeof *code);
}

/* The child's thread: waits until it is traced, installs the filters, and then stands at the tracer's disposal. */
static void *install(void *unused)
{
    char byte;
    told->thread = syscall(SYS_gettid);
    if (write(answers[1], "R", 1) != 1 || read(go[0], &byte, 1) != 1)
        _exit(1);
    for (int at = 0; at < count; at++) {
        unsigned flags = at == listener && listener ? SECCOMP_FILTER_FLAG_NEW_LISTENER : 0;
        long done = syscall(SYS_seccomp, SECCOMP_SET_MODE_FILTER, flags, &filters[at]);
        if (done < 0 || (!flags && done)) {
            told->failed = done < 0 ? errno : EPERM;
            break;
        }
        if (flags)
            told->listener = done;
        told->installed = at + 1;
    }
    for (;;)
        __asm__ volatile("int3");
    return unused;
}

/* Answers a notification with EPERM, after saying that there was one. */
static void answer_notification(void)
{
    struct seccomp_notif request;
    struct seccomp_notif_resp reply;
    memset(&request, 0, sizeof request);
    memset(&reply, 0, sizeof reply);
    if (ioctl(told->listener, SECCOMP_IOCTL_NOTIF_RECV, &request))
        return;
    reply.id = request.id;
    reply.error = -EPERM;
    if (write(answers[1], "N", 1) != 1)
        _exit(1);
    ioctl(told->listener, SECCOMP_IOCTL_NOTIF_SEND, &reply);
}

/* The child's first thread, which is under no filter: answers notifications, and says whether it lives. */
static void serve(void)
{
    for (;;) {
        char command;
        struct pollfd open[2] = {{commands[0], POLLIN, 0}, {told->listener, POLLIN, 0}};
        poll(open, told->listener >= 0 ? 2 : 1, 5);
        if (told->listener >= 0 && open[1].revents & POLLIN)
            answer_notification();
        if (!open[0].revents)
            continue;
        if (read(commands[0], &command, 1) != 1 || write(answers[1], &command, 1) != 1)
            _exit(0);
    }
}

static void be_child(void)
{
    pthread_t installer;
    close(go[1]);
    close(commands[1]);
    close(answers[0]);
    prctl(PR_SET_PDEATHSIG, SIGKILL);
    if (prctl(PR_SET_NO_NEW_PRIVS, 1, 0, 0, 0) || pthread_create(&installer, NULL, install, NULL))
        _exit(1);
    serve();
}

/* Lets the thread go on to its next stop, and gives that; 0 where the thread has ended. */
static int next_stop(int request, int *status)
{
    if (ptrace(request, thread, 0, 0) && errno != ESRCH)
        end_if(1, "resume");
    end_if(waitpid(thread, status, __WALL) != thread, "wait");
    return WIFSTOPPED(*status);
}

static int is_event(int status)
{
    return status >> 8 == (SIGTRAP | PTRACE_EVENT_SECCOMP << 8);
}

/* The child's process, after its thread has ended: whether it goes on living. It is ended then. */
static int process_lives(void)
{
    char said = 0;
    int lives = write(commands[1], "E", 1) == 1;
    while (lives && said != 'E')
        lives = read(answers[0], &said, 1) == 1;
    close(commands[1]);
    close(answers[0]);
    waitpid(process, NULL, 0);
    thread = 0;
    return lives;
}

static void end_child(void)
{
    if (thread) {
        kill(process, SIGKILL);
        waitpid(thread, NULL, __WALL);
        close(commands[1]);
        close(answers[0]);
        waitpid(process, NULL, 0);
        thread = 0;
    }
}

/* How many filters the thread is under, by /proc, or -1. */
static int told_by_proc(void)
{
    char line[256];
    int filters = -1;
    snprintf(line, sizeof line, "/proc/%d/task/%d/status", process, thread);
    FILE *status = fopen(line, "r");
    end_if(!status, line);
    while (fgets(line, sizeof line, status))
        sscanf(line, "Seccomp_filters: %d", &filters);
    fclose(status);
    return filters;
}

/* Makes a child whose thread is traced and under the filters. Gives why that failed, or NULL. */
static const char *make_child(void)
{
    static char why[100];
    char said;
    int status, trapped = 0;
    told->thread = told->installed = told->failed = 0;
    told->listener = -1;
    end_if(pipe(go) || pipe(commands) || pipe(answers), "pipe");
    process = fork();
    end_if(process < 0, "fork");
    if (!process)
        be_child();
    close(go[0]);
    close(commands[0]);
    close(answers[1]);
    end_if(read(answers[0], &said, 1) != 1, "child");
    thread = told->thread;
    long options = PTRACE_O_TRACESECCOMP | PTRACE_O_TRACESYSGOOD | PTRACE_O_EXITKILL;
    end_if(ptrace(PTRACE_SEIZE, thread, 0, options) != 0, "trace");
    end_if(write(go[1], "G", 1) != 1 || close(go[1]), "child");
    end_if(waitpid(thread, &status, __WALL) != thread, "wait");
    while (WIFSTOPPED(status) && (is_event(status) || WSTOPSIG(status) != SIGTRAP)) {
        trapped |= WSTOPSIG(status) == SIGSYS;
        next_stop(PTRACE_CONT, &status);
    }
    int lives = WIFSTOPPED(status) && !trapped;
    if (lives && told->installed == count && told_by_proc() == count) {
        end_if(ptrace(PTRACE_GETREGS, thread, 0, &idle) != 0, "registers");
        return NULL;
    }
    if (lives && !told->failed)
        snprintf(why, sizeof why, "UNTRIED a filter keeps a later one from being installed");
    else
        snprintf(why, sizeof why, "UNTRIED filter %d can't be installed: %s", told->installed,
                 lives ? strerror(told->failed) : "one before it ends or traps the call");
    if (WIFSTOPPED(status))
        end_child();
    else
        process_lives();
    return why;
}

/* Brings the thread into the kernel by a harmless call. Gives whether it stands before the filters now. */
static int enter(int is_32)
{
    int status;
    struct user_regs_struct registers = idle;
    struct ptrace_syscall_info info;
    registers.rip = (unsigned long)(is_32 ? enter_32 : enter_64);
    registers.rax = is_32 ? GETPID_32 : GETPID_64;
    registers.orig_rax = -1;
    end_if(ptrace(PTRACE_SETREGS, thread, 0, &registers) != 0, "registers");
    if (!next_stop(PTRACE_SYSCALL, &status) || status >> 8 != SYSCALL_STOP)
        return 0;
    memset(&info, 0, sizeof info);
    return ptrace(PTRACE_GET_SYSCALL_INFO, thread, sizeof info, &info) > 0 && info.op == PTRACE_SYSCALL_INFO_ENTRY
        && info.arch == (is_32 ? AUDIT_ARCH_I386 : AUDIT_ARCH_X86_64);
}

/* Puts an input in the registers of the thread, which stands before the filters. */
static void put(const struct input *input, int is_32)
{
    struct user_regs_struct registers;
    end_if(ptrace(PTRACE_GETREGS, thread, 0, &registers) != 0, "registers");
    registers.orig_rax = (long)(int32_t)input->nr;
    registers.rip = input->ip;
    unsigned long long *words[2][6] = {
        {&registers.rdi, &registers.rsi, &registers.rdx, &registers.r10, &registers.r8, &registers.r9},
        {&registers.rbx, &registers.rcx, &registers.rdx, &registers.rsi, &registers.rdi, &registers.rbp}};
    for (int at = 0; at < 6; at++)
        *words[is_32][at] = input->args[at];
    end_if(ptrace(PTRACE_SETREGS, thread, 0, &registers) != 0, "registers");
}

/* Makes the thread leave the call, which it doesn't carry out where it stands before it. */
static void leave(int is_32)
{
    struct user_regs_struct registers = idle;
    registers.rip = (unsigned long)(is_32 ? after_32 : after_64);
    registers.orig_rax = -1;
    registers.rax = -ENOSYS;
    end_if(ptrace(PTRACE_SETREGS, thread, 0, &registers) != 0, "registers");
}

/* Whether the child has reported a notification. */
static int was_notified(void)
{
    char said;
    struct pollfd open = {answers[0], POLLIN, 0};
    return poll(&open, 1, 0) == 1 && read(answers[0], &said, 1) == 1 && said == 'N';
}

/* What the kernel does to an input: from where the thread stands before the filters to the SIGTRAP behind the call. */
static const char *outcome(const struct input *input, int is_32, unsigned guard_number)
{
    static char text[100];
    int status;
    unsigned long number;
    struct user_regs_struct registers;
    siginfo_t signal;
    put(input, is_32);
    snprintf(text, sizeof text, "UNTRIED nothing was seen");
    while (next_stop(PTRACE_SYSCALL, &status)) {
        if (is_event(status)) {
            end_if(ptrace(PTRACE_GETEVENTMSG, thread, 0, &number) != 0, "event");
            leave(is_32);
            snprintf(text, sizeof text, number == guard_number ? "THROUGH" : "TRACE %lu", number);
        } else if (status >> 8 == SYSCALL_STOP) {
            end_if(ptrace(PTRACE_GETREGS, thread, 0, &registers) != 0, "registers");
            if (text[0] == 'U')
                snprintf(text, sizeof text, "ERRNO %lld", -(long long)registers.rax);
            leave(is_32);
        } else if (WSTOPSIG(status) == SIGSYS) {
            end_if(ptrace(PTRACE_GETSIGINFO, thread, 0, &signal) != 0, "signal");
            snprintf(text, sizeof text, "TRAP %d", signal.si_errno);
        } else if (WSTOPSIG(status) == SIGTRAP) {
            return was_notified() ? "USER_NOTIF" : text;
        } else {
            snprintf(text, sizeof text, "UNTRIED signal %d", WSTOPSIG(status));
            end_child();
            return text;
        }
    }
    return process_lives() ? "KILL_THREAD" : "KILL_PROCESS";
}

static const char *answer(const struct input *input, unsigned guard_number)
{
    int is_32 = input->arch == AUDIT_ARCH_I386;
    if (!is_32 && input->arch != AUDIT_ARCH_X86_64)
        return "UNTRIED no call of this machine has this architecture";
    if (!is_32 && (input->nr == URETPROBE || input->nr == UPROBE))
        return "UNTRIED no filter sees this call";
    const char *why = thread ? NULL : make_child();
    if (why)
        return why;
    if (!enter(is_32)) {
        end_child();
        return is_32 ? "UNTRIED this kernel has no calls of i386" : "UNTRIED the call wasn't come to";
    }
    return outcome(input, is_32, guard_number);
}

/* Tries the guard alone on a harmless call, so that no other is tried where this kernel doesn't skip it. */
static void try_guard(unsigned guard_number)
{
    struct input harmless = {GETPID_64, AUDIT_ARCH_X86_64, 0, {0}};
    int all = count;
    count = 1;
    if (strcmp(answer(&harmless, guard_number), "THROUGH")) {
        fprintf(stderr, "this kernel doesn't let the guard skip calls\n");
        exit(3);
    }
    end_child();
    count = all;
}

/* The word of a line that stands at an offset of struct seccomp_data, by bytes from the lowest. */
static int read_word(const char *line, int offset, int bytes, uint64_t *word)
{
    *word = 0;
    for (int at = 0; at < bytes; at++) {
        unsigned byte;
        if (sscanf(line + 2 * (offset + at), "%2x", &byte) != 1)
            return 0;
        *word |= (uint64_t)byte << 8 * at;
    }
    return 1;
}

static int read_input(const char *line, struct input *input)
{
    uint64_t nr = 0, arch = 0;
    int well = strspn(line, "0123456789abcdefABCDEF") == 128;
    well = well && read_word(line, 0, 4, &nr) && read_word(line, 4, 4, &arch) && read_word(line, 8, 8, &input->ip);
    for (int at = 0; at < 6; at++)
        well = well && read_word(line, 16 + 8 * at, 8, &input->args[at]);
    input->nr = nr;
    input->arch = arch;
    return well;
}

static void refuse_under_a_filter(void)
{
    char line[256];
    int mode = 0;
    FILE *status = fopen("/proc/self/status", "r");
    end_if(!status, "/proc/self/status");
    while (fgets(line, sizeof line, status))
        sscanf(line, "Seccomp: %d", &mode);
    fclose(status);
    if (mode) {
        fprintf(stderr, "a filter is in force here already\n");
        exit(3);
    }
}

int main(int words, char **word)
{
    char line[256];
    struct input input;
    if (words < 4 || words > FILTERS + 2) {
        fprintf(stderr, "usage: %s GUARD LISTENER FILE.. < INPUTS\n", word[0]);
        return 2;
    }
    refuse_under_a_filter();
    signal(SIGPIPE, SIG_IGN);
    unsigned guard_number = atoi(word[1]) & SECCOMP_RET_DATA;
    guard[0] = (struct sock_filter){BPF_RET | BPF_K, 0, 0, SECCOMP_RET_TRACE | guard_number};
    filters[0] = (struct sock_fprog){1, guard};
    for (count = 1; count < words - 2; count++)
        read_filter(word[count + 2], &filters[count]);
    told = mmap(NULL, sizeof *told, PROT_READ | PROT_WRITE, MAP_SHARED | MAP_ANONYMOUS, -1, 0);
    end_if(told == MAP_FAILED, "memory");
    alarm(SECONDS);
    try_guard(guard_number);
    listener = atoi(word[2]);
    while (fgets(line, sizeof line, stdin)) {
        alarm(SECONDS);
        puts(read_input(line, &input) ? answer(&input, guard_number) : "UNTRIED this isn't 128 hexadecimal digits");
        fflush(stdout);
    }
    end_child();
    return 0;
}
