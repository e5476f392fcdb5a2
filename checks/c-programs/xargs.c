// Runs a program with each line of the input behind its texts, in xv6's way. It has functions of its own under names that a
// library of C has, too.
#include "kernel/types.h"
#include "kernel/stat.h"
#include "kernel/fcntl.h"
#include "kernel/param.h"
#include "user/user.h"

// Stops with a text.
void
fail(const char *why)
{
  fprintf(2, "xargs: %s\n", why);
  exit(1);
}

// Reads a line into room; 0 at the end of the input.
int
next_line(char *room, int most)
{
  int at = 0;

  while(at + 1 < most && read(0, room + at, 1) == 1){
    if(room[at] == '\n'){
      room[at] = 0;
      return 1;
    }
    at++;
  }
  room[at] = 0;
  return at > 0;
}

// Cuts a line at its blanks.
int
split(char *line, char **words, int most)
{
  int count = 0;

  while(count < most){
    while(*line == ' ')
      *line++ = 0;
    if(*line == 0)
      break;
    words[count++] = line;
    line = strchr(line, ' ');
    if(line == 0)
      break;
  }
  return count;
}

int
main(int argc, char *argv[])
{
  char line[512];
  char *words[MAXARG];
  int given = 0;

  if(argc < 2)
    fail("a program is missing");
  for(int i = 1; i < argc && given < MAXARG - 1; i++)
    words[given++] = argv[i];
  while(next_line(line, sizeof(line))){
    words[given + split(line, words + given, MAXARG - 1 - given)] = 0;
    if(fork() == 0){
      exec(words[0], words);
      fail("exec failed");
    }
    int status;
    wait(&status);
  }
  exit(0);
}
