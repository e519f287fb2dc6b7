/* Times the calls of the crates parity and parity_lanes, and P and Q also against a plain loop in C. */
#include <stdint.h>
#include <stdio.h>
#include <stdlib.h>
#include <string.h>
#include <time.h>
#ifdef WITH_ISA_L
#include <isa-l/raid.h>
#endif

enum { SECTOR = 512, MOST_DISKS = 16, MOST_ROWS = 16, WORK = 10000, RUNS = 25 };

void parity_syndromes(uint8_t *row, size_t length, uint32_t disks, uint32_t p, uint32_t q);
void parity_lanes_syndromes(uint8_t *row, size_t length, uint32_t disks, uint32_t p, uint32_t q);
void parity_plain_syndromes(uint8_t *row, size_t length, uint32_t disks, uint32_t p);
void parity_lanes_plain_syndromes(uint8_t *row, size_t length, uint32_t disks, uint32_t p);
void parity_fill_one(uint8_t *row, size_t length, uint32_t disks, uint32_t p, uint32_t q, uint32_t missing);
void parity_lanes_fill_one(uint8_t *row, size_t length, uint32_t disks, uint32_t p, uint32_t q, uint32_t missing);
void parity_fill_two(uint8_t *row, size_t length, uint32_t disks, uint32_t p, uint32_t q, uint32_t first, uint32_t second);
void parity_lanes_fill_two(uint8_t *row, size_t length, uint32_t disks, uint32_t p, uint32_t q, uint32_t first, uint32_t second);
void plain_loop(uint8_t *row, int disks);
void plain_loop_native(uint8_t *row, int disks);

/* Some rows, each role after role: Q is the first role and P the last. */
static _Alignas(64) uint8_t rows[MOST_ROWS * MOST_DISKS * SECTOR];
static int disks, count;

static uint8_t *row_at(int i) { return rows + (size_t)i * disks * SECTOR; }

static void by_c(void)
{
    for (int i = 0; i < count; i++)
        plain_loop(row_at(i), disks);
}

static void by_c_native(void)
{
    for (int i = 0; i < count; i++)
        plain_loop_native(row_at(i), disks);
}

static void by_parity(void)
{
    for (int i = 0; i < count; i++)
        parity_syndromes(row_at(i), (size_t)disks * SECTOR, disks, disks - 1, 0);
}

static void by_lanes(void)
{
    for (int i = 0; i < count; i++)
        parity_lanes_syndromes(row_at(i), (size_t)disks * SECTOR, disks, disks - 1, 0);
}

/* The other calls, on one row. */
static size_t length(void) { return (size_t)disks * SECTOR; }
static void p_by_parity(void) { parity_plain_syndromes(rows, length(), disks, disks - 1); }
static void p_by_lanes(void) { parity_lanes_plain_syndromes(rows, length(), disks, disks - 1); }
static void data_by_parity(void) { parity_fill_one(rows, length(), disks, disks - 1, 0, 1); }
static void data_by_lanes(void) { parity_lanes_fill_one(rows, length(), disks, disks - 1, 0, 1); }
static void q_by_parity(void) { parity_fill_one(rows, length(), disks, disks - 1, 0, 0); }
static void q_by_lanes(void) { parity_lanes_fill_one(rows, length(), disks, disks - 1, 0, 0); }
static void two_by_parity(void) { parity_fill_two(rows, length(), disks, disks - 1, 0, 1, 2); }
static void two_by_lanes(void) { parity_lanes_fill_two(rows, length(), disks, disks - 1, 0, 1, 2); }

#ifdef WITH_ISA_L
static void by_isa_l(void)
{
    for (int i = 0; i < count; i++) {
        void *sectors[MOST_DISKS];
        for (int role = 1; role < disks; role++)
            sectors[role - 1] = row_at(i) + role * SECTOR;
        sectors[disks - 1] = row_at(i);
        pq_gen(disks, SECTOR, sectors);
    }
}
#endif

/* Of processor time, so that other programs on the machine count little. */
static double seconds(void)
{
    struct timespec now;
    clock_gettime(CLOCK_PROCESS_CPUTIME_ID, &now);
    return (double)now.tv_sec + (double)now.tv_nsec * 1e-9;
}

/* One run, in nanoseconds a row. */
static double timed(void (*call)(void))
{
    int repeats = WORK / (count * disks);
    double start = seconds();
    for (int i = 0; i < repeats; i++)
        call();
    return (seconds() - start) * 1e9 / repeats / count;
}

struct way {
    const char *name;
    void (*call)(void);
    double least;
};

/* Compares the rows that each way leaves, then times them in turns and keeps the best run of each. */
static int measure(struct way *ways, int way_count)
{
    static uint8_t expected[sizeof rows];
    size_t length = (size_t)count * disks * SECTOR;
    for (size_t i = 0; i < length; i++)
        rows[i] = (uint8_t)rand();
    by_c();
    memcpy(expected, rows, length);
    for (int w = 0; w < way_count; w++) {
        for (int i = 0; i < count; i++) {
            memset(row_at(i), 0, SECTOR);
            memset(row_at(i) + (disks - 1) * SECTOR, 0, SECTOR);
        }
        ways[w].call();
        if (memcmp(expected, rows, length) != 0) {
            printf("%s differs\n", ways[w].name);
            return 1;
        }
        ways[w].least = 1e18;
    }
    for (int run = 0; run < RUNS; run++)
        for (int w = 0; w < way_count; w++) {
            double each = timed(ways[w].call);
            if (each < ways[w].least)
                ways[w].least = each;
        }
    return 0;
}

/* One call of both crates on a row, of which these roles are set. */
static int measure_call(const char *name, void (*make)(void), int first, int second, void (*plain)(void), void (*lanes)(void))
{
    static uint8_t expected[sizeof rows];
    struct way ways[] = {{"parity", plain, 1e18}, {"lanes", lanes, 1e18}};
    for (size_t i = 0; i < length(); i++)
        rows[i] = (uint8_t)rand();
    make();
    memcpy(expected, rows, length());
    for (int w = 0; w < 2; w++) {
        memset(rows + first * SECTOR, 0x5a, SECTOR);
        memset(rows + second * SECTOR, 0x5a, SECTOR);
        ways[w].call();
        if (memcmp(expected, rows, length()) != 0) {
            printf("%s, %s differs\n", name, ways[w].name);
            return 1;
        }
    }
    for (int run = 0; run < RUNS; run++)
        for (int w = 0; w < 2; w++) {
            double each = timed(ways[w].call);
            if (each < ways[w].least)
                ways[w].least = each;
        }
    printf("%2d sectors, %-14s parity %5.0f ns, lanes %4.0f ns, parity/lanes %.2f\n", disks, name, ways[0].least,
           ways[1].least, ways[0].least / ways[1].least);
    fflush(stdout);
    return 0;
}

/* All calls on rows of so many sectors. */
static int measure_calls(int sectors)
{
    disks = sectors;
    count = 1;
    return measure_call("P and Q:", by_parity, 0, disks - 1, by_parity, by_lanes)
        || measure_call("P alone:", p_by_parity, disks - 1, disks - 1, p_by_parity, p_by_lanes)
        || measure_call("missing data:", by_parity, 1, 1, data_by_parity, data_by_lanes)
        || measure_call("missing Q:", by_parity, 0, 0, q_by_parity, q_by_lanes)
        || measure_call("missing two:", by_parity, 1, 2, two_by_parity, two_by_lanes);
}

int main(void)
{
    static const struct { int data, count; } cases[] = {{8, 1}, {8, 6}, {8, 16}, {4, 1}, {14, 1}};
    struct way ways[] = {
        {"parity", by_parity, 0},
        {"lanes", by_lanes, 0},
        {"C", by_c, 0},
        {"C native", by_c_native, 0},
#ifdef WITH_ISA_L
        {"pq_gen", by_isa_l, 0},
#endif
    };
    int way_count = sizeof ways / sizeof ways[0];
    for (size_t c = 0; c < sizeof cases / sizeof cases[0]; c++) {
        disks = cases[c].data + 2;
        count = cases[c].count;
        if (measure(ways, way_count) != 0)
            return 1;
        printf("%2d data disks, %2d rows: ", cases[c].data, count);
        for (int w = 0; w < way_count; w++)
            printf("%s %.0f ns, ", ways[w].name, ways[w].least);
        double lanes = ways[1].least;
        printf("lanes/parity %.2f, lanes/C %.2f, lanes/C native %.2f", lanes / ways[0].least,
               lanes / ways[2].least, lanes / ways[3].least);
        if (way_count > 4)
            printf(", lanes/pq_gen %.2f", lanes / ways[4].least);
        printf("\n");
        fflush(stdout);
    }
    return measure_calls(6) || measure_calls(16);
}
