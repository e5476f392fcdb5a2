// Three players play for two rounds, and a child deals their points. The report is wrong, since one line of this
// program is: docs/manual/gdb.md finds it with GDB, going back from where the wrong number is seen.
#include <stdio.h>
#include <stdlib.h>
#include <sys/wait.h>
#include <unistd.h>

enum { PLAYERS = 3 };

static struct {
    int points[PLAYERS];
    int rounds;
} game;

// Sends the points of each player through a pipe.
static void deal(int out)
{
    for (int player = 0; player <= PLAYERS; player++) {
        int points = 10 * (player + 1);
        write(out, &points, sizeof points);
    }
}

static void note(int player, int points)
{
    game.points[player] += points;
}

static void play(int in)
{
    int points;
    for (int player = 0; read(in, &points, sizeof points) == sizeof points; player++)
        note(player, points);
}

static void report(void)
{
    printf("%d rounds, the first player has %d points\n", game.rounds, game.points[0]);
}

int main(void)
{
    for (int round = 0; round < 2; round++) {
        int ends[2];
        pipe(ends);
        if (fork() == 0) {
            deal(ends[1]);
            exit(0);
        }
        close(ends[1]);
        play(ends[0]);
        close(ends[0]);
        wait(0);
        game.rounds++;
    }
    report();
    return 0;
}
