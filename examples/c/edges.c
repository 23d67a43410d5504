/*
 * edges: what the header says of buffers without room, of NULL and of threads, tried.
 *
 * Prints a line for each thing that isn't so. Status 0 where all is; 1 where something isn't.
 */
#include "batsokemi.h"

#include <pthread.h>
#include <stdio.h>
#include <stdlib.h>
#include <string.h>

static const char xor_tables[] = "inputs 2\n0110\n";
static const char xor_question[] = "inputs 2\n0110\nchain 1\nx3 x1 x2 0110\nout x3\nend\n";
static const char usage[] = "error: Usage\n";
static int failed;

static void expect(int fine, const char *what)
{
    if (!fine) {
        printf("edges: not so: %s\n", what);
        failed = 1;
    }
}

/* Whether all bytes of a block are this one. */
static int all(const char *block, size_t length, char byte)
{
    while (length > 0 && block[length - 1] == byte)
        length--;
    return length == 0;
}

static struct batsokemi_answer agree(char *output, size_t room)
{
    char notes[64];

    return batsokemi_call("agree", xor_question, strlen(xor_question), output, room, notes, sizeof notes);
}

static void rooms(void)
{
    char output[64];
    struct batsokemi_answer answer;

    memset(output, '#', sizeof output);
    answer = agree(output, 7);
    expect(answer.status == BATSOKEMI_DONE && answer.output_length == 7, "an output with just its room");
    expect(!memcmp(output, "agrees\n", 7) && all(output + 7, sizeof output - 7, '#'), "nothing is written behind it");
    memset(output, '#', sizeof output);
    answer = agree(output, 6);
    expect(answer.status == BATSOKEMI_DONE && answer.output_length == 7, "an output with one byte too few");
    expect(all(output, sizeof output, '#'), "it isn't written at all");
    answer = agree(output, 0);
    expect(answer.output_length == 7 && all(output, sizeof output, '#'), "a room of 0");
    answer = agree(NULL, 0);
    expect(answer.status == BATSOKEMI_DONE && answer.output_length == 7, "no output");
    answer = agree(NULL, 64);
    expect(answer.status == BATSOKEMI_DONE && answer.output_length == 7, "no output, whatever its room is said to be");
}

static void note_rooms(void)
{
    char notes[64];
    struct batsokemi_answer answer;

    memset(notes, '#', sizeof notes);
    answer = batsokemi_call("agree", "", 0, NULL, 0, notes, 20);
    expect(answer.status == BATSOKEMI_MALFORMED && answer.output_length == 0 && answer.notes_length == 19, "notes with room");
    expect(!memcmp(notes, "error: BadHeader 1\n#", 20), "an error line");
    memset(notes, '#', sizeof notes);
    answer = batsokemi_call("agree", "", 0, NULL, 0, notes, 18);
    expect(answer.status == BATSOKEMI_MALFORMED && answer.notes_length == 19, "notes with one byte too few");
    expect(all(notes, sizeof notes, '#'), "they aren't written at all");
}

/* Two netlists, each in a text of its own. */
static void pairs(void)
{
    static const char copy[] = ".inputs a\n.outputs y\n.names a y\n1 1\n.end\n";
    static const char other[] = ".inputs a\n.outputs y\n.names a y\n0 1\n.end\n";
    /* what stands behind `.end` is no part of a netlist */
    static const char undriven[] = ".inputs a\n.outputs y\n.end\n.names a y\n1 1\n";
    struct batsokemi_input inputs[3] = {{copy, sizeof copy - 1}, {copy, sizeof copy - 1}, {copy, 0}};
    char output[4096], notes[128];
    struct batsokemi_answer answer;

    expect(batsokemi_version() == BATSOKEMI_VERSION_MAJOR, "the version");
    answer = batsokemi_run_inputs("equiv", 5, inputs, 2, output, sizeof output, notes, sizeof notes);
    expect(answer.status == BATSOKEMI_DONE && !memcmp(output, "equal\n", 6), "a netlist equals itself");
    inputs[1].bytes = other;
    answer = batsokemi_run_inputs("equiv", 5, inputs, 2, output, sizeof output, notes, sizeof notes);
    expect(answer.status == BATSOKEMI_REFUSED && !memcmp(output, "differ", 6), "a buffer and a NOT differ");
    inputs[0].bytes = undriven;
    inputs[0].length = sizeof undriven - 1;
    answer = batsokemi_run_inputs("equiv", 5, inputs, 2, output, sizeof output, notes, sizeof notes);
    expect(answer.status == BATSOKEMI_MALFORMED && !memcmp(notes, "error: First ", 13), "a first netlist without a driver");
    inputs[0].length = 0;
    answer = batsokemi_run_inputs("equiv", 5, inputs, 2, output, sizeof output, notes, sizeof notes);
    expect(answer.status == BATSOKEMI_MALFORMED && !memcmp(notes, "error: First Empty\n", 19), "an empty first netlist");
    answer = batsokemi_run_inputs("agree", 5, inputs, 2, output, sizeof output, notes, sizeof notes);
    expect(answer.status == BATSOKEMI_USAGE, "two inputs of a command that reads one");
    answer = batsokemi_run_inputs("equiv", 5, inputs, 3, output, sizeof output, notes, sizeof notes);
    expect(answer.status == BATSOKEMI_USAGE, "three inputs");
}

/* A command that is none. */
static void is_usage(const char *command, size_t length, const char *what)
{
    char output[16], notes[64];
    struct batsokemi_answer answer =
        batsokemi_run(command, length, xor_tables, strlen(xor_tables), output, sizeof output, notes, sizeof notes);

    expect(answer.status == BATSOKEMI_USAGE && answer.output_length == 0, what);
    expect(answer.notes_length == strlen(usage) && !memcmp(notes, usage, strlen(usage)), what);
}

static void commands(void)
{
    char notes[64];
    struct batsokemi_answer answer = batsokemi_call(NULL, NULL, 0, NULL, 0, notes, sizeof notes);

    expect(answer.status == BATSOKEMI_USAGE && answer.notes_length == strlen(usage), "no command");
    is_usage("", 0, "the empty command");
    is_usage(" ", 1, "a blank");
    is_usage("synth ", 6, "a blank at the end");
    is_usage("synth  --max 3", 14, "two blanks");
    is_usage("synth --max 17", 14, "a value out of its range");
    is_usage("synth\n", 6, "a line end");
    is_usage("\xff", 1, "a word that isn't UTF-8");
    is_usage("agree\0", 6, "a NUL");
}

/* One certificate, and what recheck finds of it. */
static int asks(void)
{
    char output[4096], verdict[64], notes[64];
    struct batsokemi_answer answer = batsokemi_call("synth --max 4", xor_tables, strlen(xor_tables), output, sizeof output,
                                                    notes, sizeof notes);

    if (answer.status != BATSOKEMI_DONE || answer.output_length > sizeof output || answer.notes_length != 0)
        return 0;
    answer = batsokemi_call("recheck", output, answer.output_length, verdict, sizeof verdict, notes, sizeof notes);
    return answer.status == BATSOKEMI_DONE && answer.output_length == 10 && !memcmp(verdict, "minimum 1\n", 10);
}

static void *asks_often(void *fine)
{
    int turn;

    *(int *)fine = 1;
    for (turn = 0; turn < 100; turn++)
        if (!asks())
            *(int *)fine = 0;
    return NULL;
}

/* Calls in four threads, whose stacks are no larger than the header says beside what a thread needs itself. */
static void threads(void)
{
    pthread_attr_t attributes;
    pthread_t thread[4];
    int fine[4] = { 0, 0, 0, 0 }, each;

    pthread_attr_init(&attributes);
    pthread_attr_setstacksize(&attributes, BATSOKEMI_STACK + 65536);
    for (each = 0; each < 4; each++)
        if (pthread_create(&thread[each], &attributes, asks_often, &fine[each]))
            exit(2);
    for (each = 0; each < 4; each++) {
        pthread_join(thread[each], NULL);
        expect(fine[each], "calls in four threads");
    }
    pthread_attr_destroy(&attributes);
}

int main(void)
{
    rooms();
    note_rooms();
    pairs();
    commands();
    threads();
    return failed;
}
