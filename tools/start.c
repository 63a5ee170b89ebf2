/*
 * start.c: how the released program starts on any glibc from 2.17 on. A C library before 2.34 runs no constructors but those
 * that the program hands it, and before 2.33 it doesn't tell the processor's features, for which the program asks first.
 */

typedef void function(int, char **, char **);

extern function *__init_array_start[], *__init_array_end[];
void _init(void);
void start_constructors(int count, char **arguments, char **environment);
const struct leaf *__x86_get_cpuid_feature_leaf(unsigned int index);

/* By this a C library knows that its present streams are meant. */
const int _IO_stdin_used = 0x20001;

void start_constructors(int count, char **arguments, char **environment)
{
    _init();
    for (function **at = __init_array_start; at < __init_array_end; at++)
        (*at)(count, arguments, environment);
}

/* What the kernel leaves on the stack, as the x86-64 ABI has it, handed on by the oldest version of the C library's entry. */
__asm__(".symver __libc_start_main, __libc_start_main@GLIBC_2.2.5\n"
        ".globl _start\n"
        ".type _start, @function\n"
        "_start:\n"
        "    xorl %ebp, %ebp\n"
        "    movq %rdx, %r9\n"
        "    popq %rsi\n"
        "    movq %rsp, %rdx\n"
        "    andq $-16, %rsp\n"
        "    pushq %rax\n"
        "    pushq %rsp\n"
        "    xorl %r8d, %r8d\n"
        "    leaq start_constructors(%rip), %rcx\n"
        "    movq main@GOTPCREL(%rip), %rdi\n"
        "    call *__libc_start_main@GOTPCREL(%rip)\n"
        "    hlt\n");

/* ---- the processor's features */

/* As <sys/platform/x86.h> lays it out: what the processor has, and what of it the system lets a program use. */
struct leaf {
    unsigned int cpuid[4], active[4];
};

static void ask(unsigned int number, unsigned int *it)
{
    __asm__("cpuid" : "=a"(it[0]), "=b"(it[1]), "=c"(it[2]), "=d"(it[3]) : "0"(number), "2"(0));
}

/* The kernel enables all that x86-64-v2 asks for. A number above the highest of its half is none. */
static struct leaf leaf_of(unsigned int number)
{
    struct leaf it = {{0}, {0}};
    ask(number & 0x80000000, it.cpuid);
    if (it.cpuid[0] >= number) {
        ask(number, it.cpuid);
        ask(number, it.active);
    }
    return it;
}

const struct leaf *__x86_get_cpuid_feature_leaf(unsigned int index)
{
    static struct leaf found[3];
    switch (index) {
    case 0:
        found[0] = leaf_of(1);
        return &found[0];
    case 2:
        found[2] = leaf_of(0x80000001);
        return &found[2];
    default:
        return &found[1];
    }
}
