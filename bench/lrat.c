/*
 * lrat FORMULA LOG: whether a log in LRAT refutes a formula in DIMACS.
 *
 * A checker of its own, after docs/FORMATS.md ("Refutation logs"): additions by unit propagation along their hints, and
 * deletions. It prints `s VERIFIED UNSAT` with status 0 at the empty clause; `s NOT VERIFIED` and, on standard error,
 * the line of the log that doesn't hold with status 1; status 2 where a file can't be read or isn't of its form.
 *
 *     cc -O2 -o lrat lrat.c && ./lrat miter.cnf miter.lrat
 */
#include <stdarg.h>
#include <stdio.h>
#include <stdlib.h>
#include <string.h>

struct clause {
    long id;
    int *literals;
    size_t length;
};

/* The live clauses: open addressing by id; an id of -1 marks a clause that is deleted, and 0 a free place. */
static struct clause *table;
static size_t room, used;

/* By variable: 1 where it is true, -1 where it is false so far; and the variables that have a value. */
static signed char *value;
static int *trail;
static size_t trail_length;
static long variables;

static char *text;
static size_t at, text_length;
static long line_number;

static void stop(int status, const char *form, ...)
{
    va_list items;

    if (status == 1)
        puts("s NOT VERIFIED");
    va_start(items, form);
    fputs("lrat: ", stderr);
    vfprintf(stderr, form, items);
    fputc('\n', stderr);
    va_end(items);
    exit(status);
}

static void *memory(void *old, size_t count, size_t size)
{
    size_t bytes = count * size;
    void *new = realloc(old, bytes ? bytes : 1);

    if (!new)
        stop(2, "out of memory");
    return new;
}

static void read_file(const char *path)
{
    FILE *file = fopen(path, "rb");
    size_t space = 1 << 16, got;

    if (!file)
        stop(2, "%s can't be read", path);
    text = memory(text, space, 1);
    for (text_length = 0; (got = fread(text + text_length, 1, space - text_length - 1, file)) > 0;) {
        text_length += got;
        if (space - text_length < 2)
            text = memory(text, space *= 2, 1);
    }
    fclose(file);
    text[text_length] = 0;
    at = 0;
    line_number = 1;
}

static struct clause *place_of(long id)
{
    size_t place = (size_t)id * 0x9E3779B97F4A7C15u & (room - 1);

    while (table[place].id != 0 && table[place].id != id)
        place = (place + 1) & (room - 1);
    return table + place;
}

/* Gives the table twice the room, without the clauses that are deleted. */
static void grow(void)
{
    struct clause *old = table;
    size_t count = room, k;

    room = room ? 2 * room : 1024;
    table = memory(NULL, room, sizeof *table);
    memset(table, 0, room * sizeof *table);
    for (used = 0, k = 0; k < count; k++)
        if (old[k].id > 0) {
            *place_of(old[k].id) = old[k];
            used++;
        }
    free(old);
}

static void add_clause(long id, const int *literals, size_t length)
{
    struct clause *clause;

    if (2 * (used + 1) > room)
        grow();
    clause = place_of(id);
    clause->id = id;
    clause->length = length;
    clause->literals = memory(NULL, length, sizeof *literals);
    memcpy(clause->literals, literals, length * sizeof *literals);
    used++;
}

/* The next item of the line, with its number; 0 at the end of the line. */
static int item(long *number, int *is_d)
{
    char *end;

    while (text[at] == ' ')
        at++;
    if (text[at] == '\n' || at >= text_length)
        return 0;
    *is_d = text[at] == 'd';
    if (*is_d) {
        at++;
        return 1;
    }
    *number = strtol(text + at, &end, 10);
    if (end == text + at || (*end != ' ' && *end != '\n' && *end != 0))
        stop(2, "line %ld isn't of its form", line_number);
    at = (size_t)(end - text);
    return 1;
}

static void end_line(void)
{
    if (text[at] == '\n')
        at++;
    line_number++;
}

static long *numbers;
static size_t numbers_room;

/* The numbers of a line; *deletes where its second item is `d`, which isn't counted. */
static size_t read_line(int *deletes)
{
    size_t length = 0;
    long number = 0;
    int is_d;

    *deletes = 0;
    while (item(&number, &is_d)) {
        if (is_d) {
            *deletes = 1;
            if (length != 1)
                stop(2, "line %ld isn't of its form", line_number);
            continue;
        }
        if (length == numbers_room)
            numbers = memory(numbers, numbers_room = 2 * numbers_room + 64, sizeof *numbers);
        numbers[length++] = number;
    }
    end_line();
    return length;
}

static int truth(long literal)
{
    return literal > 0 ? value[literal] : -value[-literal];
}

static void make_true(long literal)
{
    long variable = literal > 0 ? literal : -literal;

    if (value[variable] == 0)
        trail[trail_length++] = (int)variable;
    value[variable] = literal > 0 ? 1 : -1;
}

static void read_formula(const char *path)
{
    long clauses, id = 0;
    size_t length, k;
    int none, *literals = NULL;

    read_file(path);
    if (sscanf(text, "p cnf %ld %ld", &variables, &clauses) != 2)
        stop(2, "%s doesn't begin with `p cnf`", path);
    while (at < text_length && text[at] != '\n')
        at++;
    end_line();
    while (at < text_length) {
        length = read_line(&none);
        if (length == 0 || numbers[length - 1] != 0)
            stop(2, "%s, line %ld: a clause ends with 0", path, line_number - 1);
        literals = memory(literals, length, sizeof *literals);
        for (k = 0; k + 1 < length; k++) {
            if (numbers[k] == 0 || labs(numbers[k]) > variables)
                stop(2, "%s, line %ld: no literal of %ld variables", path, line_number - 1, variables);
            literals[k] = (int)numbers[k];
        }
        add_clause(++id, literals, length - 1);
    }
    if (id != clauses)
        stop(2, "%s has %ld clauses, and says %ld", path, id, clauses);
    free(literals);
    value = memory(NULL, (size_t)variables + 1, 1);
    memset(value, 0, (size_t)variables + 1);
    trail = memory(NULL, (size_t)variables + 1, sizeof *trail);
}

static void delete_clauses(size_t length)
{
    size_t k;
    struct clause *clause;

    if (length < 2 || numbers[length - 1] != 0)
        stop(2, "line %ld: a deletion ends with 0", line_number - 1);
    for (k = 1; k + 1 < length; k++) {
        clause = numbers[k] > 0 ? place_of(numbers[k]) : NULL;
        if (!clause || clause->id != numbers[k])
            stop(1, "line %ld: no clause %ld to delete", line_number - 1, numbers[k]);
        free(clause->literals);
        clause->literals = NULL;
        clause->id = -1;
    }
}

/* Whether the clause of a hint is false so far; one literal that isn't false becomes true. */
static int follow(long hint)
{
    struct clause *clause = hint > 0 ? place_of(hint) : NULL;
    long left = 0;
    size_t k;
    int count = 0;

    if (!clause || clause->id != hint)
        stop(1, "line %ld: no clause %ld", line_number - 1, hint);
    for (k = 0; k < clause->length; k++)
        if (truth(clause->literals[k]) >= 0) {
            left = clause->literals[k];
            count++;
        }
    if (count > 1)
        stop(1, "line %ld: clause %ld isn't unit", line_number - 1, hint);
    if (count == 1)
        make_true(left);
    return count == 0;
}

/* Checks an addition; whether it is the empty clause. */
static int check_addition(size_t length, long *last)
{
    size_t end = 1, k;
    int *literals, conflict = 0;

    while (end < length && numbers[end] != 0)
        end++;
    if (length < 3 || end + 1 >= length || numbers[length - 1] != 0 || numbers[0] <= *last)
        stop(2, "line %ld isn't of its form, or its id isn't greater than all before", line_number - 1);
    *last = numbers[0];
    literals = memory(NULL, end, sizeof *literals);
    for (k = 1; k < end; k++) {
        if (labs(numbers[k]) > variables)
            stop(1, "line %ld: no variable %ld", line_number - 1, labs(numbers[k]));
        literals[k - 1] = (int)numbers[k];
        make_true(-numbers[k]);
    }
    for (k = end + 1; k + 1 < length; k++) {
        if (conflict)
            stop(1, "line %ld: a hint after the conflict", line_number - 1);
        conflict = follow(numbers[k]);
    }
    if (!conflict)
        stop(1, "line %ld: no conflict", line_number - 1);
    while (trail_length > 0)
        value[trail[--trail_length]] = 0;
    add_clause(numbers[0], literals, end - 1);
    free(literals);
    return end == 1;
}

int main(int count, char **words)
{
    size_t length;
    int deletes;
    long last;

    if (count != 3) {
        fputs("lrat FORMULA LOG\n", stderr);
        return 2;
    }
    grow();
    read_formula(words[1]);
    last = (long)used;
    read_file(words[2]);
    while (at < text_length) {
        length = read_line(&deletes);
        if (deletes)
            delete_clauses(length);
        else if (check_addition(length, &last)) {
            puts("s VERIFIED UNSAT");
            return 0;
        }
    }
    stop(1, "the log ends without the empty clause");
    return 1;
}
