/* Runs the commands of vectors/README.md, read from standard input, over the C interface, and prints a line for each call. */
#include "instrument.h"
#include <inttypes.h>
#include <stdio.h>
#include <stdlib.h>
#include <string.h>

struct command {
    char letter;
    size_t count, room;
    uint64_t *numbers;
    uint32_t *columns; /* a load's numbers after the first, as the library takes them */
};

/* FNV-1a of 64 bits. A zero byte only multiplies by the prime, so the zeros at an area's end are one power of it. */
static uint64_t hash_of(const uint8_t *bytes, size_t length)
{
    const uint64_t prime = 0x00000100000001b3;
    uint64_t hash = 0xcbf29ce484222325, power = prime;
    size_t used = length;
    while (used > 0 && bytes[used - 1] == 0)
        used--;
    for (size_t i = 0; i < used; i++)
        hash = (hash ^ bytes[i]) * prime;
    for (size_t zeros = length - used; zeros > 0; zeros /= 2) {
        if (zeros % 2 == 1)
            hash *= power;
        power *= power;
    }
    return hash;
}

/* The next line, of any length, without its end. Returns 0 where there is none. */
static int read_line(struct area *line)
{
    for (size_t used = 0;; used++) {
        if (used == line->length) {
            line->length = 2 * line->length + 64;
            line->bytes = realloc(line->bytes, line->length);
            if (line->bytes == NULL)
                exit(2);
        }
        int byte = getchar();
        if (byte == EOF || byte == '\n') {
            line->bytes[used] = '\0';
            return byte != EOF || used > 0;
        }
        /* A zero byte is in no command, and would end the line for C. */
        line->bytes[used] = byte == '\0' ? '?' : (uint8_t)byte;
    }
}

/* A number of digits alone, and what follows it. Returns NULL where there is none, or it has more than 64 bits. */
static const char *read_number(const char *at, uint64_t *number)
{
    if (*at < '0' || *at > '9')
        return NULL;
    for (*number = 0; *at >= '0' && *at <= '9'; at++) {
        uint64_t digit = (uint64_t)(*at - '0');
        if (*number > (UINT64_MAX - digit) / 10)
            return NULL;
        *number = *number * 10 + digit;
    }
    return at;
}

/* The place of the next number. A load's line has any number of them. */
static uint64_t *next_place(struct command *to)
{
    if (to->count == to->room) {
        to->room = 2 * to->room + 4;
        to->numbers = realloc(to->numbers, to->room * sizeof *to->numbers);
        if (to->numbers == NULL)
            exit(2);
    }
    return &to->numbers[to->count++];
}

/* A letter and its numbers, one space between, digits only. Returns 0 where the line is none. */
static int read_command(const char *line, struct command *to)
{
    /* A line that loads no records may keep the space before the first. */
    const char *at = strcmp(line, "O 0 ") == 0 ? "O 0" : line;
    if (*at == '\0' || *at == ' ')
        return 0;
    to->letter = *at++;
    to->count = 0;
    while (at != NULL && *at == ' ')
        at = read_number(at + 1, next_place(to));
    return at != NULL && *at == '\0';
}

static void copy_areas(struct area to[AREAS], const struct area from[AREAS])
{
    for (int i = 0; i < AREAS; i++) {
        to[i].bytes = realloc(to[i].bytes, from[i].length + 1);
        if (to[i].bytes == NULL)
            exit(2);
        to[i].length = from[i].length;
        if (from[i].length > 0)
            memcpy(to[i].bytes, from[i].bytes, from[i].length);
    }
}

static void print_hashes(const struct instrument *in)
{
    for (int i = 0; i < AREAS; i++)
        printf(" %016" PRIx64, hash_of(in->areas[i].bytes, in->areas[i].length));
    printf(" %016" PRIx64 "\n", hash_of(in->desk, sizeof in->desk));
}

/* A call, cut after `cut` of its stores where that is not negative. */
static void run_call(struct instrument *in, struct call made, int64_t cut, struct area before[AREAS])
{
    uint8_t desk[DONZHIKAR_DESK_BYTES];
    char text[64];
    memcpy(desk, in->desk, sizeof desk);
    copy_areas(before, in->areas);
    uint32_t reason = make(in, made);
    size_t stores = stores_of(in, made, reason, desk, &before[STABLE_LOG]);
    size_t carried = cut < 0 || (uint64_t)cut > stores ? stores : (size_t)cut;
    answer_text(text, sizeof text, made.letter, reason, in->values);
    if (cut >= 0)
        pull_plug(in, made, stores, carried, before);
    printf("%c %s s %zu", made.letter, cut >= 0 ? "K" : text, carried);
    print_hashes(in);
}

static int lend_lengths(struct instrument *in, const struct command *command)
{
    size_t lengths[AREAS];
    if (command->count != AREAS)
        return 0;
    for (int i = 0; i < AREAS; i++)
        lengths[i] = (size_t)command->numbers[i];
    lend(in, lengths);
    return 1;
}

static int damage(struct instrument *in, const struct command *command)
{
    const uint64_t *n = command->numbers;
    if (command->count != 3 || n[0] >= AREAS || n[2] > 255)
        return 0;
    if (n[1] < in->areas[n[0]].length)
        in->areas[n[0]].bytes[n[1]] ^= (uint8_t)n[2];
    return 1;
}

/* The same for one of the desk's numbers, most significant byte first. */
static int damage_desk(struct instrument *in, const struct command *command)
{
    const uint64_t *n = command->numbers;
    if (command->count != 2 || n[0] >= sizeof in->desk / 4 || n[1] > UINT32_MAX)
        return 0;
    for (int i = 0; i < 4; i++)
        in->desk[4 * n[0] + (uint64_t)i] ^= (uint8_t)(n[1] >> (24 - 8 * i));
    return 1;
}

/* The columns of a load: the first number says how many of the others are keys, and the rest are values. Returns 0 where there are fewer. */
static int lend_columns(struct instrument *in, struct command *command)
{
    if (command->count == 0 || command->numbers[0] >= command->count)
        return 0;
    command->columns = realloc(command->columns, command->count * sizeof *command->columns);
    if (command->columns == NULL)
        exit(2);
    for (size_t i = 1; i < command->count; i++) {
        if (command->numbers[i] > UINT32_MAX)
            return 0;
        command->columns[i - 1] = (uint32_t)command->numbers[i];
    }
    size_t keys = (size_t)command->numbers[0];
    in->columns = (struct columns){ command->columns, keys, command->columns + keys, command->count - 1 - keys };
    return 1;
}

/* The numbers of any other call. Returns 0 where there are fewer or more, or one has more than 32 bits. */
static int take_numbers(struct call *made, const struct command *command)
{
    if (numbers_of(made->letter) < 0 || (size_t)numbers_of(made->letter) != command->count)
        return 0;
    for (size_t i = 0; i < command->count; i++) {
        if (command->numbers[i] > UINT32_MAX)
            return 0;
        made->numbers[i] = (uint32_t)command->numbers[i];
    }
    return 1;
}

/* Carries out one command. Returns 0 where there is no such command. */
static int run(struct instrument *in, struct command *command, int64_t *cut, struct area before[AREAS])
{
    struct call made = { command->letter, { 0, 0, 0 } };
    if (command->letter == 'L')
        return lend_lengths(in, command);
    if (command->letter == 'P')
        return damage(in, command);
    if (command->letter == 'd')
        return damage_desk(in, command);
    if (command->letter == 'K' && command->count == 1) {
        *cut = command->numbers[0] > INT64_MAX ? INT64_MAX : (int64_t)command->numbers[0];
        return 1;
    }
    if (!(command->letter == 'O' ? lend_columns(in, command) : take_numbers(&made, command)))
        return 0;
    run_call(in, made, *cut, before);
    *cut = -1;
    return 1;
}

int main(void)
{
    static struct instrument in;
    struct area before[AREAS] = { { NULL, 0 }, { NULL, 0 }, { NULL, 0 }, { NULL, 0 } };
    const size_t none[AREAS] = { 0, 0, 0, 0 };
    struct area line = { NULL, 0 };
    struct command command = { 0, 0, 0, NULL, NULL };
    int64_t cut = -1;
    lend(&in, none);
    for (unsigned number = 1; read_line(&line); number++) {
        if (line.bytes[0] == '\0')
            continue;
        if (!read_command((const char *)line.bytes, &command) || !run(&in, &command, &cut, before)) {
            fprintf(stderr, "line %u is no command\n", number);
            return 1;
        }
    }
    for (int i = 0; i < AREAS; i++)
        free(before[i].bytes);
    free(line.bytes);
    free(command.numbers);
    free(command.columns);
    give_back(&in);
    return 0;
}
