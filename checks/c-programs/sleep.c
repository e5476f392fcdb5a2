// Sleeps so many ticks, in xv6's way.
#include "kernel/types.h"
#include "kernel/stat.h"
#include "user/user.h"

int
main(int argc, char *argv[])
{
  if(argc != 2){
    fprintf(2, "usage: sleep ticks\n");
    exit(1);
  }
  if(sleep(atoi(argv[1])) < 0){
    fprintf(2, "sleep: interrupted\n");
    exit(1);
  }
  exit(0);
}
