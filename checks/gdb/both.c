// Parent and child count, each a number of its own: two processes at the same lines, for gdb/sessions.sh.
#include <stdio.h>
#include <stdlib.h>
#include <sys/wait.h>
#include <unistd.h>

int counted;

__attribute__((noinline)) static int add(int by)
{
    counted += by;
    return counted;
}

__attribute__((noinline)) static int work(int rounds)
{
    int sum = 0;
    for (int i = 0; i < rounds; i++)
        sum += add(1);
    return sum;
}

int main(void)
{
    int child = fork();
    int sum = work(40);
    if (child == 0) {
        printf("child: %d\n", sum);
        exit(3);
    }
    int status = 0;
    wait(&status);
    printf("parent: %d, its child %d\n", sum + work(5), status);
    return 0;
}
