/* Whose instructions can be worked out: between the first two marks none, then seven, then one and a million times two, then four, of
   which the last lies on two pages. bench/check counts them. */
#include <sched.h>

int main(void)
{
    sched_yield();
    sched_yield();

    sched_yield();
    __asm__ volatile("nop; nop; nop; nop; nop; nop; nop");
    sched_yield();

    sched_yield();
    __asm__ volatile("mov $1000000, %%ecx; 1: dec %%ecx; jnz 1b" ::: "ecx", "cc");
    sched_yield();

    sched_yield();
    __asm__ volatile("jmp 1f; .balign 4096; .skip 4091; 1: nop; nop; movabs $1, %%rax" ::: "rax");
    sched_yield();
    return 0;
}
