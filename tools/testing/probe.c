/* Makes system calls and prints what each returns: the program of a container in tests of runtimes, on x86-64.

   Each call is four words: 64 or 32 (a call of i386), its number, and two arguments. It prints a line `begun`, and a
   line for each call. It has no C library, so that it makes no other calls but `write` and `exit_group`. */

enum { WRITE = 1, EXIT_GROUP = 231, LINE = 32 };

static long made(long number, unsigned long first, unsigned long second, unsigned long third)
{
    long result;
    __asm__ volatile("syscall"
                     : "=a"(result)
                     : "0"(number), "D"(first), "S"(second), "d"(third)
                     : "rcx", "r11", "memory");
    return result;
}

static long made_of_i386(long number, unsigned long first, unsigned long second)
{
    int result;
    __asm__ volatile("int $0x80"
                     : "=a"(result)
                     : "0"(number), "b"(first), "c"(second)
                     : "r8", "r9", "r10", "r11", "memory");
    return result;
}

static unsigned long number_in(const char *word)
{
    unsigned long number = 0;
    for (; *word; word++)
        number = number * 10 + (unsigned long)(*word - '0');
    return number;
}

static void print(long number)
{
    char line[LINE], *at = line + LINE;
    unsigned long rest = number < 0 ? -(unsigned long)number : (unsigned long)number;
    *--at = '\n';
    for (; rest || at == line + LINE - 1; rest /= 10)
        *--at = (char)('0' + rest % 10);
    if (number < 0)
        *--at = '-';
    made(WRITE, 1, (unsigned long)at, (unsigned long)(line + LINE - at));
}

/* What the kernel leaves at the top of the stack: how many words there are, and the words. */
__attribute__((used)) static void run(long *top)
{
    char **words = (char **)(top + 1);
    made(WRITE, 1, (unsigned long)"begun\n", 6);
    for (long at = 1; at + 3 < *top; at += 4) {
        unsigned long numbers[4];
        for (int of = 0; of < 4; of++)
            numbers[of] = number_in(words[at + of]);
        print(numbers[0] == 64 ? made((long)numbers[1], numbers[2], numbers[3], 0)
                               : made_of_i386((long)numbers[1], numbers[2], numbers[3]));
    }
    made(EXIT_GROUP, 0, 0, 0);
}

__attribute__((naked, used)) void _start(void)
{
    __asm__("mov %rsp, %rdi\n\tandq $-16, %rsp\n\tcall run\n\thlt");
}
