/* What the programs share that are measured beside packrun: memory, sections, the lines of the input and of the output. */
#include <stddef.h>
#include <stdint.h>
#include <stdio.h>
#include <stdlib.h>
#include <string.h>

typedef unsigned __int128 Volume;

/* A section of a bin, by its corner and its size on the axes x, y and z. */
struct section {
    uint32_t at[3], size[3];
};

/* A name in the input, a size and its volume. */
struct sized {
    const char *name;
    uint32_t size[3];
    Volume volume;
};

/* The memory, where there is any. */
static void *given(void *memory)
{
    if (memory == NULL)
        exit(3);
    return memory;
}

/* The memory with room for one more item after `count` of them. */
static void *grown(void *memory, size_t count, size_t *room, size_t item)
{
    if (count < *room)
        return memory;
    *room = *room == 0 ? 4 : 2 * *room;
    return given(realloc(memory, *room * item));
}

static Volume volume(const uint32_t size[3])
{
    return (Volume)((uint64_t)size[0] * size[1]) * size[2];
}

/* The whole input, ended by a zero byte. */
static char *input(void)
{
    char *text = NULL;
    size_t count = 0, room = 0;
    do {
        room = room == 0 ? 1 << 16 : 2 * room;
        text = given(realloc(text, room));
        count += fread(text + count, 1, room - count, stdin);
    } while (count == room);
    text[count] = 0;
    return text;
}

/* What the words after the first one of a line name. */
static struct sized next_sized(void)
{
    struct sized read = {.name = strtok(NULL, " \n")};
    for (int axis = 0; axis < 3; axis++)
        read.size[axis] = (uint32_t)strtoul(strtok(NULL, " \n"), NULL, 10);
    read.volume = volume(read.size);
    return read;
}

static void print_number(uint64_t number, char end)
{
    char digits[20];
    int count = 0;
    do
        digits[count++] = (char)('0' + number % 10);
    while ((number /= 10) > 0);
    while (count > 0)
        putchar_unlocked(digits[--count]);
    putchar_unlocked(end);
}

static void print_word(const char *word, char end)
{
    fputs(word, stdout);
    putchar_unlocked(end);
}
