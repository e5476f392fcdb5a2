// A byte goes to a child and back, over two pipes, in xv6's way.
#include "kernel/types.h"
#include "user/user.h"

#define FROM 0
#define TO 1

int
main(void)
{
  int down[2], up[2];
  uchar byte = '!';

  if(pipe(down) < 0 || pipe(up) < 0){
    fprintf(2, "pingpong: no pipe\n");
    exit(1);
  }
  int child = fork();
  if(child < 0){
    fprintf(2, "pingpong: no child\n");
    exit(1);
  }
  if(child == 0){
    close(down[TO]);
    close(up[FROM]);
    if(read(down[FROM], &byte, 1) != 1)
      exit(1);
    printf("%d: received ping\n", getpid());
    write(up[TO], &byte, 1);
    exit(0);
  }
  close(down[FROM]);
  close(up[TO]);
  write(down[TO], &byte, sizeof byte);
  if(read(up[FROM], &byte, 1) != 1)
    exit(1);
  printf("%d: received pong\n", getpid());
  int status = -2;
  wait(&status);
  exit(status);
}
