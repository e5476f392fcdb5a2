/* An interpreter of a small stack language by one switch: a jump by a table for each of its instructions. */
enum operation { PUSH, ADD, SUBTRACT, XOR, SHIFT, DUPLICATE, SWAP, LOAD, STORE, JUMP_IF, DECREMENT, STOP };

struct instruction {
    enum operation operation;
    int operand;
};

static int variables[8];
static int stack[16];

/* Counts variable 0 down, and mixes variables 1 and 2 meanwhile. */
static const struct instruction program[] = {
    {LOAD, 1}, {PUSH, 7},      {ADD, 0},    {DUPLICATE, 0}, {LOAD, 2},  {XOR, 0},     {STORE, 2}, {SHIFT, 1}, {STORE, 1}, {LOAD, 2},
    {LOAD, 1}, {SUBTRACT, 0},  {SWAP, 0},   {STORE, 3},     {LOAD, 3},  {XOR, 0},     {STORE, 1}, {PUSH, 1},  {PUSH, 2},  {SWAP, 0},
    {ADD, 0},  {LOAD, 2},      {ADD, 0},    {STORE, 2},     {LOAD, 0},  {DECREMENT, 0}, {DUPLICATE, 0}, {STORE, 0}, {JUMP_IF, 0}, {STOP, 0},
};

static void run(void)
{
    const struct instruction *at = program;
    int top = 0;

    stack[0] = 0;
    for (;; at++) {
        switch (at->operation) {
        case PUSH: stack[++top] = at->operand; break;
        case ADD: top--; stack[top] += stack[top + 1]; break;
        case SUBTRACT: top--; stack[top] -= stack[top + 1]; break;
        case XOR: top--; stack[top] ^= stack[top + 1]; break;
        case SHIFT: stack[top] = (int)((unsigned)stack[top] >> at->operand); break;
        case DUPLICATE: stack[top + 1] = stack[top]; top++; break;
        case SWAP: {
            int kept = stack[top];
            stack[top] = stack[top - 1];
            stack[top - 1] = kept;
            break;
        }
        case LOAD: stack[++top] = variables[at->operand]; break;
        case STORE: variables[at->operand] = stack[top--]; break;
        case JUMP_IF:
            if (stack[top--])
                at = program + at->operand - 1;
            /* What is left over is dropped at each round. */
            top = 0;
            break;
        case DECREMENT: stack[top]--; break;
        case STOP: return;
        }
    }
}

int main(void)
{
    variables[0] = 1900000;
    variables[1] = 1;
    run();
    return (int)((unsigned)variables[2] % 251);
}
