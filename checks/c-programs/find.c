// Begins as a search through folders in xv6's way does: the machine has none.
#include "kernel/types.h"
#include "kernel/stat.h"
#include "kernel/fs.h"
#include "user/user.h"

int
main(void)
{
  exit(0);
}
