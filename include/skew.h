/* Clock skew scheduling for callers in C99 and later and in C++11 and later.
 *
 * Both functions return for every input, keep nothing between calls, use no memory but their stack, and touch no byte outside what they
 * are lent. All times are whole picoseconds.
 *
 * A buffer is lent as a pointer and a count of bytes. The pointer must not be null, even where the count is 0, and `out` must not
 * overlap `file`. Where there is nothing to lend, pass the address of any byte of your own and the count 0: nothing is read or written
 * through it. `data()` of an empty std::vector may be null and will not do.
 *
 * Calls from several threads are independent: each may run at any time beside the others, as long as none writes to bytes that another
 * call was lent. Several calls may read one file at once.
 *
 * Stack on x86-64, measured on painted stacks: `skew_schedule` takes up to 64,336 bytes, hardly less for a file that it refuses, and
 * `skew_question` under 1 KB. A thread has to hold some KB of its own besides: with glibc, networks of 256 registers and 2,048 paths ran
 * in threads of 72 KB and crashed in threads of 64 KB. Give a thread SKEW_STACK bytes or more; the usual size, of megabytes, will do.
 */
#ifndef SKEW_H
#define SKEW_H

#include <stddef.h>
#include <stdint.h>

#define SKEW_VERSION "1.0.0"
#define SKEW_VERSION_MAJOR 1
#define SKEW_VERSION_MINOR 0
#define SKEW_VERSION_PATCH 0

/* The greatest values that a network file and a question may have (RULES 5.6, 8.3), and the sizes in bytes that follow from them. Where the
 * comment says so, the least value is the greatest with a minus. */
#define SKEW_MAX_REGISTERS 256
#define SKEW_MAX_PATHS 2048
#define SKEW_MAX_PERIOD 10000000   /* floor, ceiling, and the period of a question; the least is 1 */
#define SKEW_MAX_UNCERTAINTY 10000
#define SKEW_MAX_MARGIN 100000     /* setup and hold times; -100,000 is the least */
#define SKEW_MAX_LATENCY 1000000   /* ends of windows, and latencies in a question; -1,000,000 is the least */
#define SKEW_MAX_DELAY 1000000
#define SKEW_MAX_FILE 41494        /* skew_file_size(SKEW_MAX_REGISTERS, SKEW_MAX_PATHS) */
#define SKEW_MAX_ROOM 4110         /* skew_room(SKEW_MAX_REGISTERS) */
#define SKEW_STACK 131072          /* stack for a thread that calls: about twice what `skew_schedule` takes */

/* One form of cast for both languages: C++ compilers can be told to warn of C's. */
#ifdef __cplusplus
#define SKEW_CAST(type, value) static_cast<type>(value)
#else
#define SKEW_CAST(type, value) ((type)(value))
#endif

#ifdef __cplusplus
extern "C" {
#endif

/* The numbers, in the words of a caller; docs/RULES.md has them in full (RULES 6.2). Of those from 1 on that apply, the lowest is
 * returned, and 0 where none applies (RULES 6.3).
 *
 *  number              given exactly when                                place                 output
 */
enum {
    SKEW_ANSWERED = 0,  /* answered; for a question, its slack is told    0                     period, latencies, loop;
                                                                                                a question has none */
    SKEW_HEADER = 1,    /* under 22 bytes, or the first two not `NW`      0                     untouched */
    SKEW_COUNTS = 2,    /* register or path count out of range            0                     untouched */
    SKEW_LENGTH = 3,    /* the length is not 22 + 18 (n + m)              0                     untouched */
    SKEW_RANGES = 4,    /* floor, ceiling or uncertainty out of range     0                     untouched */
    SKEW_REGISTER = 5,  /* a register record has a wrong mark or field    lowest such register  untouched */
    SKEW_PATH = 6,      /* a path record has a wrong mark or field        lowest such path      untouched */
    SKEW_ROOM = 7,      /* room below 14 + 16 n bytes                     0                     untouched */
    SKEW_NO_PERIOD = 8, /* no schedule at any period, however large       0                     a loop without setup rules */
    SKEW_NONE_TO_CEILING = 9, /* a schedule at some period, none up to    0                     a loop that contradicts itself
                                 the ceiling                                                    at the ceiling */
    SKEW_QUESTION = 10  /* the period of a question is outside 1 to 10,000,000, a latency outside -1,000,000 to 1,000,000, or the
                           rule does not exist                            0                     a question has none */
};

/* A number in a sentence, for messages. The place is not in it. */
static inline const char *skew_message(uint32_t number)
{
    static const char *const sentences[] = {
        "The network is answered; of a question, the slack of its rule is told.",
        "The file has fewer than 22 bytes, or its first two are not NW.",
        "The number of registers is not 1 to 256, or the number of paths is not 0 to 2,048.",
        "The file's length is not 22 + 18 (n + m) bytes for its n registers and m paths.",
        "The floor or the ceiling is not 1 to 10,000,000, the ceiling is below the floor, or the uncertainty is not 0 to 10,000.",
        "A register's record has a wrong mark or a number out of range.",
        "A path's record has a wrong mark or a number out of range.",
        "The output has fewer than 14 + 16 n bytes for the n registers of the file.",
        "There is no schedule at any period, however large: a loop of hold rules and windows contradicts itself.",
        "There is a schedule at some period, but none up to the ceiling.",
        "The question's period is not 1 to 10,000,000, a latency is not -1,000,000 to 1,000,000, or there is no such rule.",
    };
    return number < sizeof sentences / sizeof sentences[0] ? sentences[number] : "No call returns this number.";
}

/* The kinds of rules, in a question and in a loop. Setup and hold are numbered by the path, low and high by the register. */
enum {
    SKEW_SETUP = 0, /* from a path's sender to its receiver */
    SKEW_HOLD = 1,  /* from a path's receiver to its sender */
    SKEW_LOW = 2,   /* from the host, register 0, to the register */
    SKEW_HIGH = 3   /* from the register to the host */
};

static inline const char *skew_kind_name(int32_t kind)
{
    static const char *const names[] = {"setup", "hold", "low", "high"};
    return kind >= SKEW_SETUP && kind <= SKEW_HIGH ? names[kind] : "no kind";
}

/* The 32 bits of a number in two's complement, as a number. */
static inline int32_t skew_signed(uint32_t word)
{
    return word <= 0x7fffffffu ? SKEW_CAST(int32_t, word) : -SKEW_CAST(int32_t, 0xffffffffu - word) - 1;
}

/* What is returned is one integer: the number in the low 32 bits. The 32 bits above these are shared: after a refusal they are its place,
 * after a question's number 0 its slack in two's complement, and after the scheduler's number 0 they are 0. So look at the number first.
 *
 * A slack is how many picoseconds a rule has to spare (RULES 15.2): 0 or more meets the rule, 0 meets it exactly, and a negative slack
 * tells by how much it is broken.
 *
 *  setup  (head + period) - (tail + dmax + setup + u)   how long before the receiver's next edge the slowest data is there,
 *                                                       beyond setup time and uncertainty
 *  hold   (head + dmin) - (tail + hold + c)             how long after the receiver's edge the fastest data comes,
 *                                                       beyond hold time and uncertainty
 *  low    head - low                                    how far the register's latency is above the low end of its window
 *  high   high - tail                                   how far it is below the high end
 *
 * tail and head are the latencies that the question gives, setup and hold the receiver's times, and u the file's uncertainty. c is 0 on a
 * path from a register to itself, where one edge cannot be early and late at once, and u on every other path (RULES 16.2). Slacks of setup
 * rules lie between -3,109,999 and 12,100,000, of hold rules between -2,110,000 and 3,100,000, of low and high rules between -2,000,000 and
 * 2,000,000 (RULES 15.6). */
static inline uint32_t skew_number(uint64_t result) { return SKEW_CAST(uint32_t, result & 0xffffffffu); }

/* The place of a refusal, as the numbers above have it; 0 after number 0. */
static inline uint32_t skew_place(uint64_t result) { return skew_number(result) == 0 ? 0 : SKEW_CAST(uint32_t, result >> 32); }

/* What `skew_slack` gives for a refusal. It is no slack: it is below all of them, so that one who forgets to look at the number takes no
 * rule for met. */
#define SKEW_NO_SLACK INT32_MIN

/* The slack in what `skew_question` returned. What `skew_schedule` returns has none. */
static inline int32_t skew_slack(uint64_t result)
{
    return skew_number(result) == 0 ? skew_signed(SKEW_CAST(uint32_t, result >> 32)) : SKEW_NO_SLACK;
}

/* Whether `skew_question` answered that the rule is met: number 0 and a slack of at least 0. A refusal is neither yes nor no, and what
 * `skew_schedule` returned is no matter for it. */
static inline int skew_yes(uint64_t result) { return skew_number(result) == 0 && skew_slack(result) >= 0; }

/* The network file. It is a row of records: the header, n registers, m paths. Each begins with a mark of two letters in ASCII, `NW`, `RG` or
 * `PT`; then come numbers of four bytes, two's complement, low byte first. Nothing follows the last record, and no number may be left out.
 * Register 0 is the host: it stands for all ports, and its latency is 0. Times are in picoseconds. Where each number stands and which
 * values it may have, both ends included, is in RULES 5.6:
 * | record     | begins at byte  | number  | offset in the record | range |
 * | header     | 0               | n       | 2                    | 1 to 256 |
 * |            |                 | m       | 6                    | 0 to 2,048 |
 * |            |                 | floor   | 10                   | 1 to 10,000,000 |
 * |            |                 | ceiling | 14                   | floor to 10,000,000 |
 * |            |                 | u       | 18                   | 0 to 10,000 |
 * | register i | 22 + 18i        | setup   | 2                    | -100,000 to 100,000 |
 * |            |                 | hold    | 6                    | -100,000 to 100,000 |
 * |            |                 | low     | 10                   | -1,000,000 to 1,000,000; for register 0 only 0 |
 * |            |                 | high    | 14                   | -1,000,000 to 1,000,000 and not below low; for register 0 only 0 |
 * | path p     | 22 + 18(n + p)  | from    | 2                    | 0 to n - 1 |
 * |            |                 | to      | 6                    | 0 to n - 1 |
 * |            |                 | dmin    | 10                   | 0 to dmax |
 * |            |                 | dmax    | 14                   | dmin to 1,000,000 |
 *
 * floor and ceiling bound the period, and u is the clock uncertainty. low and high are the window of a register's latency. dmin and dmax
 * are the least and the greatest delay of a path. A path from a register to itself and several paths between the same two are legal, and
 * each one counts. */

/* The size in bytes of the file of n registers and m paths, both in range. */
static inline size_t skew_file_size(size_t n, size_t m) { return 22 + 18 * (n + m); }

/* Writes a number at this address, and reads it: four bytes. */
static inline void skew_put_number(uint8_t *at, int32_t number)
{
    uint32_t word = SKEW_CAST(uint32_t, number);
    at[0] = SKEW_CAST(uint8_t, word & 0xffu);
    at[1] = SKEW_CAST(uint8_t, word >> 8 & 0xffu);
    at[2] = SKEW_CAST(uint8_t, word >> 16 & 0xffu);
    at[3] = SKEW_CAST(uint8_t, word >> 24);
}

static inline int32_t skew_get_number(const uint8_t *at)
{
    return skew_signed(SKEW_CAST(uint32_t, at[0]) | SKEW_CAST(uint32_t, at[1]) << 8 | SKEW_CAST(uint32_t, at[2]) << 16 |
                       SKEW_CAST(uint32_t, at[3]) << 24);
}

/* A record's mark, given by the codes of its letters so that the compiler's own character set has no say, and its first four numbers. */
static inline void skew_put_record(uint8_t *at, uint8_t first, uint8_t second, int32_t a, int32_t b, int32_t c, int32_t d)
{
    at[0] = first;
    at[1] = second;
    skew_put_number(at + 2, a);
    skew_put_number(at + 6, b);
    skew_put_number(at + 10, c);
    skew_put_number(at + 14, d);
}

/* These three write a file record by record. The caller lends skew_file_size(n, m) bytes in `file`. Each call writes one whole record at its
 * place in the table and no other byte, so the records may come in any order, and each may be written again; nothing is allocated. i must
 * be below n, and p below m. Numbers are not checked here: the two functions below do that. */
static inline void skew_put_header(uint8_t *file, size_t n, size_t m, int32_t floor, int32_t ceiling, int32_t u)
{
    int32_t registers = skew_signed(SKEW_CAST(uint32_t, n & 0xffffffffu)), paths = skew_signed(SKEW_CAST(uint32_t, m & 0xffffffffu));
    skew_put_record(file, 78, 87, registers, paths, floor, ceiling);
    skew_put_number(file + 18, u);
}

static inline void skew_put_register(uint8_t *file, size_t i, int32_t setup, int32_t hold, int32_t low, int32_t high)
{
    skew_put_record(file + skew_file_size(i, 0), 82, 71, setup, hold, low, high);
}

static inline void skew_put_path(uint8_t *file, size_t n, size_t p, int32_t from, int32_t to, int32_t dmin, int32_t dmax)
{
    skew_put_record(file + skew_file_size(n, p), 80, 84, from, to, dmin, dmax);
}

/* Of a file that was not refused with 1 to 6: the number of its registers and of its paths, and the registers that path p, which must be
 * below the number of paths, leads from and to. */
static inline size_t skew_registers(const uint8_t *file) { return SKEW_CAST(size_t, skew_get_number(file + 2)); }
static inline size_t skew_paths(const uint8_t *file) { return SKEW_CAST(size_t, skew_get_number(file + 6)); }
static inline size_t skew_from(const uint8_t *file, size_t p)
{
    return SKEW_CAST(size_t, skew_get_number(file + skew_file_size(skew_registers(file), p) + 2));
}
static inline size_t skew_to(const uint8_t *file, size_t p)
{
    return SKEW_CAST(size_t, skew_get_number(file + skew_file_size(skew_registers(file), p) + 6));
}

/* The registers at the tail and at the head of a rule's arrow, as the kinds above have them. The file must be one that was not refused with
 * 1 to 6, and the rule one that it has, as each rule of a loop that is shown. */
static inline size_t skew_tail(const uint8_t *file, int32_t kind, int32_t number)
{
    size_t named = SKEW_CAST(size_t, number);
    return kind == SKEW_SETUP ? skew_from(file, named) : kind == SKEW_HOLD ? skew_to(file, named) : kind == SKEW_HIGH ? named : 0;
}

static inline size_t skew_head(const uint8_t *file, int32_t kind, int32_t number)
{
    size_t named = SKEW_CAST(size_t, number);
    return kind == SKEW_SETUP ? skew_to(file, named) : kind == SKEW_HOLD ? skew_from(file, named) : kind == SKEW_LOW ? named : 0;
}

/* Output room for a network of n registers. Of 256, the most there can be, it is 4,110 bytes. */
static inline size_t skew_room(size_t n) { return 14 + 16 * n; }

/* Schedules the network file in `file`, and leaves the answer in `out`:
 *
 *   `SK` period, number of latencies, number of loop entries    14 bytes
 *   `LT` latency, for each register                             6 bytes each
 *   `ED` kind, number, for each loop entry                      10 bytes each
 *
 * After a mark of two bytes come numbers of four bytes, two's complement, low byte first. With numbers 8 and 9 period and number of
 * latencies are 0 and the loop follows at once. Bytes past the last one written keep their values. */
uint64_t skew_schedule(const uint8_t *file, size_t file_size, uint8_t *out, size_t out_size);

/* These read what `skew_schedule` left in `out` with number 0, 8 or 9; after other numbers there is nothing to read. i must be below the
 * number of latencies, and j below the number of entries. An answer at the floor has no entries; the loop of one above it contradicts
 * itself at the period before. */
static inline int32_t skew_period(const uint8_t *out) { return skew_get_number(out + 2); }
static inline size_t skew_latencies(const uint8_t *out) { return SKEW_CAST(size_t, skew_get_number(out + 6)); }
static inline size_t skew_entries(const uint8_t *out) { return SKEW_CAST(size_t, skew_get_number(out + 10)); }
static inline int32_t skew_latency(const uint8_t *out, size_t i) { return skew_get_number(out + 14 + 6 * i + 2); }
static inline int32_t skew_entry_kind(const uint8_t *out, size_t j) { return skew_get_number(out + 14 + 6 * skew_latencies(out) + 10 * j + 2); }
static inline int32_t skew_entry_number(const uint8_t *out, size_t j)
{
    return skew_get_number(out + 14 + 6 * skew_latencies(out) + 10 * j + 6);
}

/* The slack of the rule of this kind and number, at this period, with these latencies at its arrow's tail and head (SKEW_SETUP to SKEW_HIGH
 * say which registers these are): at least 0 where the rule is met. The host's latency is not read for low and high rules; all numbers must
 * be in range all the same (SKEW_QUESTION). It has no output. */
uint64_t skew_question(const uint8_t *file, size_t file_size, int32_t period, int32_t kind, int32_t number, int32_t tail_latency,
                       int32_t head_latency);

#ifdef __cplusplus
}
#endif

#endif
