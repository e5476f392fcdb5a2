/* Pages and addresses, under the names that sources in xv6's way have for them (Privileged ISA, "Sv39: Page-Based 39-bit
   Virtual-Memory System"). What only the kernel may ask, as its control registers, isn't here. */
#ifndef KERNEL_RISCV_H
#define KERNEL_RISCV_H

#include "../kernel_limits.h"
#include "types.h"

#define PGSIZE PAGE_BYTES                          /* bytes of a page */
#define PGSHIFT 12                                 /* bits of a place in a page */
#define PGROUNDUP(bytes) (((uint64)(bytes) + PGSIZE - 1) & ~((uint64)PGSIZE - 1))
#define PGROUNDDOWN(address) ((uint64)(address) & ~((uint64)PGSIZE - 1))
#define MAXVA (1L << 38)                           /* no address is from here on */

/* What an entry of a page table allows. */
#define PTE_V (1L << 0)
#define PTE_R (1L << 1)
#define PTE_W (1L << 2)
#define PTE_X (1L << 3)
#define PTE_U (1L << 4)

typedef uint64 pte_t;
typedef uint64 *pagetable_t;

#ifndef __TINYC__ /* which has no inline assembler */
/* The stack pointer. */
static inline uint64 r_sp(void)
{
    uint64 value;

    asm volatile("mv %0, sp" : "=r"(value));
    return value;
}
#endif

#endif
