// Pages, calls by their numbers, and bytes, in xv6's way, with declarations of its own as such sources have them.
#include "kernel/param.h"
#include "kernel/types.h"
#include "kernel/stat.h"
#include "kernel/riscv.h"
#include "kernel/memlayout.h"
#include "kernel/syscall.h"
#include "user/user.h"

int uptime(void);
uint strlen(const char*);
int memcmp(const void*, const void*, uint);

// Compares bytes: the program's own, in the library's place.
int
memcmp(const void *left, const void *right, uint count)
{
  const char *a = left, *b = right;

  while(count-- > 0){
    if(*a != *b)
      return *a - *b;
    a++;
    b++;
  }
  return 0;
}

// Whether a child that reads at the address ends by a fault.
int
faults(uint64 address)
{
  int status;

  if(fork() == 0){
    char byte = *(volatile char *)address;

    exit(byte != 'x');
  }
  wait(&status);
  return status == -1;
}

int
main(int argc, char *argv[])
{
  char *page = sbrk(PGSIZE);

  if(page == SBRK_ERROR || uptime() < 0)
    exit(1);
  printf("the new page: %d bytes, %d of them before the next page\n", PGSIZE, (int)(PGROUNDUP(page + 1) - (uint64)page));
  printf("too much: %d\n", sbrk(1 << 30) == SBRK_ERROR);
  memset(page, 'x', 8);
  printf("compared: %d %d\n", memcmp(page, "xxxxxxxx", 8), memcmp(page, "xxxxxxxy", 8));
  printf("lengths: %d %d\n", strlen(""), strlen(argv[0]));
  printf("calls: fork %d, pause %d, mkdir %d\n", SYS_fork, SYS_pause, SYS_mkdir);
  printf("faults: %d %d %d %d\n", faults(PGROUNDDOWN(page)), faults(TRAPFRAME), faults(TRAMPOLINE), faults(KERNBASE));
  printf("the stack is in page %d\n", PGROUNDDOWN(r_sp()) == PGROUNDDOWN(&argc));
  exit(0);
}
