/* Tries the inline functions and macros of include/skew.h without the library, as C and as C++; test_header.py says what is due.
 *
 *   returned         number, place, slack, whether that is SKEW_NO_SLACK, and yes, for each integer in hexadecimal on standard input
 *   put              the network file whose numbers stand on standard input, with bytes that must stay around it
 *   get FILE ANSWER  what the functions read out of a network file and an answer
 *   messages         the sentence of each number on standard input
 *   kinds            the name of each kind on standard input
 *   limits           each macro that is a number
 */
#include <inttypes.h>
#include <stdio.h>
#include <string.h>

#include "skew.h"

enum { AROUND = 8, PAINT = 0xa5 };

static void returned(void)
{
    uint64_t result;
    while (scanf("%" SCNx64, &result) == 1)
        printf("%" PRIu32 " %" PRIu32 " %" PRId32 " %d %d\n", skew_number(result), skew_place(result), skew_slack(result),
               skew_slack(result) == SKEW_NO_SLACK, skew_yes(result));
}

static void numbers(int32_t *row, int count)
{
    int i;
    for (i = 0; i < count; i++)
        if (scanf("%" SCNd32, &row[i]) != 1)
            row[i] = 0;
}

/* The header is written last and the records from the last to the first, since the order is to have no say. */
static void put(void)
{
    static uint8_t bytes[AROUND + SKEW_MAX_FILE + AROUND];
    static int32_t records[SKEW_MAX_REGISTERS + SKEW_MAX_PATHS][4];
    uint8_t *file = bytes + AROUND;
    int32_t header[3], *row;
    size_t n, m, i;
    if (scanf("%zu %zu", &n, &m) != 2 || n > SKEW_MAX_REGISTERS || m > SKEW_MAX_PATHS)
        return;
    memset(bytes, PAINT, sizeof bytes);
    numbers(header, 3);
    for (i = 0; i < n + m; i++)
        numbers(records[i], 4);
    for (i = n + m; i-- > 0;) {
        row = records[i];
        if (i >= n)
            skew_put_path(file, n, i - n, row[0], row[1], row[2], row[3]);
        else
            skew_put_register(file, i, row[0], row[1], row[2], row[3]);
    }
    skew_put_header(file, n, m, header[0], header[1], header[2]);
    fwrite(bytes, 1, AROUND + skew_file_size(n, m) + AROUND, stdout);
}

static int load(const char *name, uint8_t *bytes, size_t room)
{
    FILE *in = fopen(name, "rb");
    if (in == NULL || fread(bytes, 1, room, in) == 0)
        return 0;
    return fclose(in) == 0;
}

static void get(const char *file_name, const char *answer_name)
{
    static uint8_t file[SKEW_MAX_FILE], out[SKEW_MAX_ROOM];
    size_t i;
    int32_t kind, number;
    if (!load(file_name, file, sizeof file) || !load(answer_name, out, sizeof out))
        return;
    printf("%zu %zu %" PRId32 "\n", skew_registers(file), skew_paths(file), skew_period(out));
    for (i = 0; i < skew_latencies(out); i++)
        printf("%" PRId32 "\n", skew_latency(out, i));
    for (i = 0; i < skew_entries(out); i++) {
        kind = skew_entry_kind(out, i);
        number = skew_entry_number(out, i);
        printf("%s %" PRId32 " %zu %zu\n", skew_kind_name(kind), number, skew_tail(file, kind, number), skew_head(file, kind, number));
    }
}

static void messages(void)
{
    uint32_t number;
    while (scanf("%" SCNu32, &number) == 1)
        puts(skew_message(number));
}

static void kinds(void)
{
    int32_t kind;
    while (scanf("%" SCNd32, &kind) == 1)
        puts(skew_kind_name(kind));
}

#define LIMIT(name) printf("%s %ld\n", #name, SKEW_CAST(long, name))

static void limits(void)
{
    LIMIT(SKEW_VERSION_MAJOR);
    LIMIT(SKEW_VERSION_MINOR);
    LIMIT(SKEW_VERSION_PATCH);
    LIMIT(SKEW_MAX_REGISTERS);
    LIMIT(SKEW_MAX_PATHS);
    LIMIT(SKEW_MAX_PERIOD);
    LIMIT(SKEW_MAX_UNCERTAINTY);
    LIMIT(SKEW_MAX_MARGIN);
    LIMIT(SKEW_MAX_LATENCY);
    LIMIT(SKEW_MAX_DELAY);
    LIMIT(SKEW_MAX_FILE);
    LIMIT(SKEW_MAX_ROOM);
    LIMIT(skew_file_size(SKEW_MAX_REGISTERS, SKEW_MAX_PATHS));
    LIMIT(skew_room(SKEW_MAX_REGISTERS));
}

int main(int count, char **given)
{
    static const struct {
        const char *name;
        void (*run)(void);
    } commands[] = {{"returned", returned}, {"put", put}, {"messages", messages}, {"kinds", kinds}, {"limits", limits}};
    size_t i;
    if (count == 4 && strcmp(given[1], "get") == 0) {
        get(given[2], given[3]);
        return 0;
    }
    for (i = 0; count == 2 && i < sizeof commands / sizeof commands[0]; i++)
        if (strcmp(given[1], commands[i].name) == 0) {
            commands[i].run();
            return 0;
        }
    return 2;
}
