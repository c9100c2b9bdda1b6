/* The system calls of the driver, for Linux on x86-64. It has no C library, so that one file links and runs wherever the proved
   library does. */
#ifndef DRIVER_SYSTEM_H
#define DRIVER_SYSTEM_H
enum { READ = 0, WRITE = 1, MMAP = 9, MPROTECT = 10, EXIT = 60 };

static long system_call(long number, long a, long b, long c, long d, long e, long f) {
    register long r10 __asm__("r10") = d, r8 __asm__("r8") = e, r9 __asm__("r9") = f;
    __asm__ volatile("syscall" : "+a"(number) : "D"(a), "S"(b), "d"(c), "r"(r10), "r"(r8), "r"(r9) : "rcx", "r11", "memory");
    return number;
}

/* The stack is aligned by hand: nothing called this. */
__asm__(".globl _start\n_start: xor %ebp, %ebp\n and $-16, %rsp\n call serve\n");
#endif
