// A sieve: each process hands the numbers that its prime doesn't divide to the next, in xv6's way.
#include "kernel/types.h"
#include "kernel/param.h"
#include "user/user.h"

#define LAST 280

static void sieve(int) __attribute__((noreturn));

static void
sieve(int numbers)
{
  int prime, number, next[2];

  if(read(numbers, &prime, sizeof(prime)) != sizeof(prime))
    exit(0);
  printf("prime %d\n", prime);
  pipe(next);
  if(fork() == 0){
    close(numbers);
    close(next[1]);
    sieve(next[0]);
  }
  close(next[0]);
  while(read(numbers, &number, sizeof(number)) == sizeof(number))
    if(number % prime != 0)
      write(next[1], &number, sizeof(number));
  close(next[1]);
  wait(0);
  exit(0);
}

int
main(int argc, char *argv[])
{
  int numbers[2], last = argc > 1 ? atoi(argv[1]) : LAST;

  pipe(numbers);
  int child = fork();
  if(child == 0){
    close(numbers[1]);
    sieve(numbers[0]);
  }
  close(numbers[0]);
  for(int number = 2; number <= last; number++)
    write(numbers[1], &number, sizeof(number));
  close(numbers[1]);
  while(wait(0) >= 0)
    ;
  exit(0);
}
