/* Bytes and lines of what a descriptor is on. */
#include "user.h"

void read_from(struct input *input, int descriptor)
{
    input->descriptor = descriptor;
    input->next = 0;
    input->count = 0;
}

int next_byte(struct input *input)
{
    if (input->next >= input->count) {
        input->next = 0;
        input->count = read(input->descriptor, input->bytes, sizeof input->bytes);
        if (input->count <= 0)
            return -1;
    }
    return (unsigned char)input->bytes[input->next++];
}

int next_line(struct input *input, char *line, int room)
{
    int length = 0;
    int byte = next_byte(input);

    if (byte < 0)
        return -1;
    while (byte >= 0 && byte != '\n') {
        line[length++] = byte;
        if (length == room - 1)
            break;
        byte = next_byte(input);
    }
    line[length] = 0;
    return length;
}
