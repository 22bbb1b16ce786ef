/* Schedules a network that stands in memory, and asks by how much the answer meets the rules of the loop that is shown with it. */
#include <inttypes.h>
#include <stdio.h>

#include "skew.h"

enum { REGISTERS = 3, PATHS = 3, FILE_SIZE = 22 + 18 * (REGISTERS + PATHS), ROOM = 14 + 16 * REGISTERS };

/* Three registers, the host first, and three paths around them. */
static void put_network_a(uint8_t *file)
{
    skew_put_header(file, REGISTERS, PATHS, 1, 100, 0);
    skew_put_register(file, 0, 1, 1, 0, 0);
    skew_put_register(file, 1, 1, 1, -10, 10);
    skew_put_register(file, 2, 1, 1, -10, 10);
    skew_put_path(file, REGISTERS, 0, 0, 1, 2, 9);
    skew_put_path(file, REGISTERS, 1, 1, 2, 2, 3);
    skew_put_path(file, REGISTERS, 2, 2, 0, 2, 6);
}

static int print_refusal(uint64_t result)
{
    printf("refused %" PRIu32 " %" PRIu32 ": %s\n", skew_number(result), skew_place(result), skew_message(skew_number(result)));
    return 1;
}

static void print_answer(const uint8_t *out)
{
    printf("period %" PRId32 "\n", skew_period(out));
    for (size_t i = 0; i < skew_latencies(out); i++)
        printf("latency %zu %" PRId32 "\n", i, skew_latency(out, i));
    if (skew_entries(out) > 0)
        printf("loop %" PRId32 "\n", skew_period(out) - 1);
}

/* The slack of each rule of the loop with the answer's latencies, and their sum. At the answer's period the sum is at least 0 and less than
 * the number of setup rules. Each of these loses 1 at the period before, so there the sum is below 0, with any latencies: some rule is
 * always broken. */
static int print_slacks(const uint8_t *file, const uint8_t *out, int32_t period)
{
    int32_t sum = 0, setups = 0;
    for (size_t j = 0; j < skew_entries(out); j++) {
        int32_t kind = skew_entry_kind(out, j), number = skew_entry_number(out, j);
        int32_t tail = skew_latency(out, skew_tail(file, kind, number)), head = skew_latency(out, skew_head(file, kind, number));
        uint64_t reply = skew_question(file, FILE_SIZE, period, kind, number, tail, head);
        if (skew_number(reply) != SKEW_ANSWERED)
            return print_refusal(reply);
        printf("%s %" PRId32 " at %" PRId32 ": slack %" PRId32 ", %s\n", skew_kind_name(kind), number, period, skew_slack(reply),
               skew_yes(reply) ? "yes" : "no");
        sum += skew_slack(reply);
        setups += kind == SKEW_SETUP;
    }
    printf("sum at %" PRId32 ": %" PRId32 ", setup rules: %" PRId32 "\n", period, sum, setups);
    return 0;
}

int main(void)
{
    uint8_t file[FILE_SIZE], out[ROOM];
    put_network_a(file);
    uint64_t result = skew_schedule(file, sizeof file, out, sizeof out);
    if (skew_number(result) != SKEW_ANSWERED)
        return print_refusal(result);
    print_answer(out);
    if (skew_entries(out) == 0)
        return 0;
    return print_slacks(file, out, skew_period(out)) || print_slacks(file, out, skew_period(out) - 1);
}
