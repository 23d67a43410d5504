/*
 * stack COMMAND [FILE]: how many bytes of stack a call takes, asked of a file (of an empty input where none is named).
 *
 * The call runs in a thread whose stack was painted first; what is no longer painted was used. A thread that does nothing
 * gives what a thread itself takes. Prints the bytes of the call and its status; 2 where the file can't be read.
 */
#include "batsokemi.h"

#include <pthread.h>
#include <stdio.h>
#include <stdlib.h>
#include <string.h>
#include <sys/mman.h>

#define ROOM ((size_t)8 << 20)
#define PAINT 0x5a

/* What a thread asks, and what was answered. */
struct question {
    const char *command;
    char *input, *output;
    size_t length, room;
    struct batsokemi_answer answer;
};

static void *nothing(void *what)
{
    return what;
}

static void *ask(void *what)
{
    struct question *q = what;

    q->answer = batsokemi_call(q->command, q->input, q->length, q->output, q->room, NULL, 0);
    return NULL;
}

/* Memory that takes none until it is written. */
static void *space(size_t room)
{
    void *at = mmap(NULL, room, PROT_READ | PROT_WRITE, MAP_PRIVATE | MAP_ANONYMOUS, -1, 0);

    if (at == MAP_FAILED)
        exit(2);
    return at;
}

/* How much stack a thread takes that does this. */
static size_t used(void *(*deed)(void *), void *what)
{
    unsigned char *stack = space(ROOM);
    pthread_attr_t attributes;
    pthread_t thread;
    size_t free = 0;

    memset(stack, PAINT, ROOM);
    pthread_attr_init(&attributes);
    if (pthread_attr_setstack(&attributes, stack, ROOM) || pthread_create(&thread, &attributes, deed, what))
        exit(2);
    pthread_join(thread, NULL);
    pthread_attr_destroy(&attributes);
    while (free < ROOM && stack[free] == PAINT)
        free++;
    munmap(stack, ROOM);
    return ROOM - free;
}

int main(int count, char **words)
{
    struct question q = { count > 1 ? words[1] : "", space((size_t)1 << 26), space((size_t)1 << 30), 0, (size_t)1 << 30, { 0, 0, 0 } };

    if (count > 2) {
        FILE *file = fopen(words[2], "rb");

        if (!file)
            return 2;
        q.length = fread(q.input, 1, (size_t)1 << 26, file);
        fclose(file);
    }
    printf("%zu bytes, ", used(ask, &q) - used(nothing, NULL));
    printf("status %u\n", (unsigned)q.answer.status);
    return 0;
}
