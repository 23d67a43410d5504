/*
 * batsokemi.h: exact synthesis of Boolean chains, improvement of netlists and combinational equivalence, in memory.
 *
 * The library is the program `batsokemi` as one function: a command line and the bytes of its input come in, and the
 * status, the output and the notes (what the program writes on standard output and on standard error) go out. It is
 * formally verified, but for the calls of the C library that give it memory, and the function's contract is that of the
 * program: docs/GUARANTEES.md says in words what each command promises, and docs/FORMATS.md what each reads and writes.
 *
 *     struct batsokemi_answer answer;
 *     char output[65536], notes[256];
 *
 *     answer = batsokemi_call("synth --max 5", tables, strlen(tables), output, sizeof output, notes, sizeof notes);
 *     if (answer.status == BATSOKEMI_DONE && answer.output_length <= sizeof output)
 *         fwrite(output, 1, answer.output_length, stdout);
 *
 * Link with libbatsokemi.so, or with libbatsokemi.a; both need the C library alone. Where tools/install has put them,
 * `pkg-config --cflags --libs batsokemi` has the flags.
 *
 * Copyright (c) 2026 The Batsokemi developers; licensed under MIT or Apache-2.0, at your choice (LICENSE-MIT,
 * LICENSE-APACHE).
 */
#ifndef BATSOKEMI_H
#define BATSOKEMI_H

#include <stddef.h>
#include <stdint.h>
#include <string.h>

#ifdef __cplusplus
extern "C" {
#endif

/* The version of this header and of the library that it was made for. */
#define BATSOKEMI_VERSION_MAJOR 2
#define BATSOKEMI_VERSION_MINOR 0

/* How a call ended: the statuses with which the program ends. */
enum batsokemi_status {
    /* The answer is the output. */
    BATSOKEMI_DONE = 0,
    /* The words aren't a command; the notes have the line `error: Usage`. */
    BATSOKEMI_USAGE = 1,
    /* The input isn't of its form. With this status and with 3, 7 and 8 the notes have one error line, a name and maybe
     * numbers or words, as `error: BadRow 2`; but not where `agree` or `equiv` find a difference (8). */
    BATSOKEMI_MALFORMED = 2,
    /* The input is beyond a limit. */
    BATSOKEMI_LIMIT = 3,
    /* A budget was spent before the question was decided; the output has what is known. */
    BATSOKEMI_UNDECIDED = 4,
    /* A call over memory never ends so: reading failed. */
    BATSOKEMI_READ_FAULT = 5,
    /* Memory for the output or for the notes couldn't be had. The output may be a prefix of an answer. */
    BATSOKEMI_WRITE_FAULT = 6,
    /* Other memory couldn't be had. The output is empty, but that of `synth` may be a prefix of a certificate. Where not
     * even the words had room, the notes are empty too. */
    BATSOKEMI_MEMORY = 7,
    /* The input is of its form, and what it claims doesn't hold. A difference that `agree` or `equiv` find is the output,
     * as `differs 1 3`, and the notes are empty. */
    BATSOKEMI_REFUSED = 8
};

/* What a call answers. */
struct batsokemi_answer {
    /* One of enum batsokemi_status. */
    uint32_t status;
    /* How many bytes the output and the notes have, whether or not their buffers had room for them. */
    size_t output_length;
    size_t notes_length;
};

/*
 * Does what the words of a command ask of an input.
 *
 * command  the words of a command line without the program's name, parted by single blanks, as in
 *          "synth --method fence --max 7": UTF-8, `command_length` bytes, no NUL needed. The empty text and one with
 *          two blanks in a row or a word that isn't UTF-8 are answered with BATSOKEMI_USAGE.
 * input    what the command reads on standard input, `input_length` bytes, which may be any.
 * output   a buffer of `output_room` bytes for the output.
 * notes    a buffer of `notes_room` bytes for the notes: an error line, or a report of `improve` or of a comparison.
 *
 * An output that is no longer than its buffer stands at the buffer's start, and the bytes after it are as before. One
 * that is longer isn't written at all: the whole buffer is as before, and `answer.output_length` says what room is wanted. A
 * second call with that room gives the same answer, and does all the work again: where a question may be hard, give much
 * room at first, as by mmap, where what isn't written takes no memory. The same holds of the notes, each buffer by itself;
 * so a room of 0 asks for the length alone. No NUL is written after a text.
 *
 * Ownership: the caller keeps all four blocks. The function reads the first two and writes into the others, never beyond
 * their rooms, and keeps no pointer after the call. What it takes by malloc it gives back before it returns.
 *
 * The four pointers aren't NULL, also where the length is 0 (batsokemi_call below takes NULL). A block that is written
 * overlaps no other one. A length is at most PTRDIFF_MAX.
 *
 * Threads: the library has no state. Calls in any number of threads, each with buffers of its own, don't meet; they may
 * read the same command and the same input. It isn't to be called from a signal handler. BATSOKEMI_STACK bytes of stack
 * are enough: that is measured, over all commands and netlists of 100,000 gates, and not proved.
 *
 * A call takes as long as the command does, and can't be stopped; `--conflicts` and `--max` bound the logs of `synth`.
 * It blocks on nothing, reads no file, no clock and no environment, and never ends the process.
 */
struct batsokemi_answer batsokemi_run(const void *command, size_t command_length, const void *input, size_t input_length,
                                      void *output, size_t output_room, void *notes, size_t notes_room);

/*
 * The same for a command that reads two inputs, which is `equiv`, as "equiv --conflicts 1000": whether two netlists in
 * BLIF are equivalent, each in a text of its own. The texts are never joined: `equal` and `differ` speak of these two.
 * A text without one directive isn't a netlist here (BATSOKEMI_MALFORMED, `error: First Empty`). Any other command is
 * answered with BATSOKEMI_USAGE.
 */
struct batsokemi_answer batsokemi_run_pair(const void *command, size_t command_length, const void *first,
                                           size_t first_length, const void *second, size_t second_length,
                                           void *output, size_t output_room, void *notes, size_t notes_room);

/* The major version of the library: that of the header that it fits, BATSOKEMI_VERSION_MAJOR. */
uint32_t batsokemi_version(void);

/* An input of a command. */
struct batsokemi_input {
    const void *bytes;
    size_t length;
};

/*
 * The same for as many inputs as the command reads: none, one or two (`equiv` of two texts). With more the answer is
 * BATSOKEMI_USAGE.
 */
static inline struct batsokemi_answer batsokemi_run_inputs(const void *command, size_t command_length,
                                                           const struct batsokemi_input *inputs, size_t count,
                                                           void *output, size_t output_room, void *notes,
                                                           size_t notes_room)
{
    const char none = 0;

    if (count == 2)
        return batsokemi_run_pair(command, command_length, inputs[0].bytes, inputs[0].length, inputs[1].bytes,
                                  inputs[1].length, output, output_room, notes, notes_room);
    if (count == 1)
        return batsokemi_run(command, command_length, inputs[0].bytes, inputs[0].length, output, output_room, notes,
                             notes_room);
    return batsokemi_run(count ? &none : command, count ? 0 : command_length, &none, 0, output, output_room, notes,
                         notes_room);
}

/*
 * What stack a call needs at most, in bytes, with room to spare: for threads with a small stack. The program, with what
 * its process needs besides, runs within
 *
 *     24 KiB   synth by ssv or fence, improve --cap 0 of 100,000 gates in a row
 *     32 KiB   synth by select, --least-depth yes, improve with and without --observe yes, equiv
 *     48 KiB   recheck
 *
 * examples/c/stack.c measures a call.
 */
#define BATSOKEMI_STACK 262144

/*
 * The same, of a command that ends with a NUL. A pointer may be NULL: that is the empty command, which is answered with
 * BATSOKEMI_USAGE, the empty input, or a buffer without room, whatever its length is said to be.
 */
static inline struct batsokemi_answer batsokemi_call(const char *command, const void *input, size_t input_length,
                                                     void *output, size_t output_room, void *notes, size_t notes_room)
{
    char none = 0;

    return batsokemi_run(command ? command : &none, command ? strlen(command) : 0,
                         input ? input : &none, input ? input_length : 0,
                         output ? output : &none, output ? output_room : 0,
                         notes ? notes : &none, notes ? notes_room : 0);
}

#ifdef __cplusplus
}
#endif

#endif
