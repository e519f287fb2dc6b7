/* Times the calls of parity_lanes over one row beside those over many rows of a buffer, on 128 rows. */
#include <stdint.h>
#include <stdio.h>
#include <stdlib.h>
#include <string.h>
#include <time.h>

/* ROLE_SECTORS is the constant of that name in parity_lanes. */
#ifndef ROLE_SECTORS
#define ROLE_SECTORS 128
#endif
enum { SECTOR = 512, ROWS = 128, MOST_DISKS = 16, ROLE_BYTES = SECTOR * ROLE_SECTORS, RUNS = 1500 };

void parity_lanes_syndromes(uint8_t *row, size_t length, uint32_t disks, uint32_t p, uint32_t q);
void parity_lanes_plain_syndromes(uint8_t *row, size_t length, uint32_t disks, uint32_t p);
void parity_lanes_fill_one(uint8_t *row, size_t length, uint32_t disks, uint32_t p, uint32_t q, uint32_t missing);
void parity_lanes_fill_two(uint8_t *row, size_t length, uint32_t disks, uint32_t p, uint32_t q, uint32_t first, uint32_t second);
void parity_lanes_syndromes_run(uint8_t *buffer, size_t length, uint32_t disks, uint32_t p, uint32_t q, size_t first, size_t count);
void parity_lanes_plain_syndromes_run(uint8_t *buffer, size_t length, uint32_t disks, uint32_t p, size_t first, size_t count);
void parity_lanes_fill_one_run(uint8_t *buffer, size_t length, uint32_t disks, uint32_t p, uint32_t q, uint32_t missing, size_t first, size_t count);
void parity_lanes_fill_two_run(uint8_t *buffer, size_t length, uint32_t disks, uint32_t p, uint32_t q, uint32_t one, uint32_t two, size_t first, size_t count);

static _Alignas(64) uint8_t rows[ROWS * MOST_DISKS * SECTOR], buffer[MOST_DISKS * ROLE_BYTES];
static uint32_t disks;
static size_t at_once;

static size_t length(void) { return disks * SECTOR; }
static uint8_t *row_at(int i) { return rows + (size_t)i * length(); }

#define EACH_ROW(call) for (int i = 0; i < ROWS; i++) call
static void both_by_rows(void) { EACH_ROW(parity_lanes_syndromes(row_at(i), length(), disks, disks - 1, 0)); }
static void p_by_rows(void) { EACH_ROW(parity_lanes_plain_syndromes(row_at(i), length(), disks, disks - 1)); }
static void data_by_rows(void) { EACH_ROW(parity_lanes_fill_one(row_at(i), length(), disks, disks - 1, 0, 1)); }
static void q_by_rows(void) { EACH_ROW(parity_lanes_fill_one(row_at(i), length(), disks, disks - 1, 0, 0)); }
static void two_by_rows(void) { EACH_ROW(parity_lanes_fill_two(row_at(i), length(), disks, disks - 1, 0, 1, 2)); }

#define EACH_RUN(call) for (size_t first = 0; first < ROWS; first += at_once) call
static void both_by_runs(void) { EACH_RUN(parity_lanes_syndromes_run(buffer, sizeof buffer, disks, disks - 1, 0, first, at_once)); }
static void p_by_runs(void) { EACH_RUN(parity_lanes_plain_syndromes_run(buffer, sizeof buffer, disks, disks - 1, first, at_once)); }
static void data_by_runs(void) { EACH_RUN(parity_lanes_fill_one_run(buffer, sizeof buffer, disks, disks - 1, 0, 1, first, at_once)); }
static void q_by_runs(void) { EACH_RUN(parity_lanes_fill_one_run(buffer, sizeof buffer, disks, disks - 1, 0, 0, first, at_once)); }
static void two_by_runs(void) { EACH_RUN(parity_lanes_fill_two_run(buffer, sizeof buffer, disks, disks - 1, 0, 1, 2, first, at_once)); }

/* Of processor time, so that other programs on the machine count less. */
static double seconds(void)
{
    struct timespec now;
    clock_gettime(CLOCK_PROCESS_CPUTIME_ID, &now);
    return (double)now.tv_sec + (double)now.tv_nsec * 1e-9;
}

/* The best of many, in nanoseconds a row. */
static double timed(void (*call)(void))
{
    double least = 1e18;
    for (int run = 0; run < RUNS; run++) {
        double start = seconds();
        call();
        double each = (seconds() - start) * 1e9 / ROWS;
        if (each < least)
            least = each;
    }
    return least;
}

static void show(const char *name, int data, double each)
{
    printf("  %s %6.1f ns a row, %5.1f GB/s", name, each, data * SECTOR / each);
}

static int measure(const char *name, int data, void (*by_rows)(void), void (*by_runs)(void))
{
    for (size_t i = 0; i < ROWS * length(); i++)
        rows[i] = (uint8_t)rand();
    for (int i = 0; i < ROWS; i++)
        for (uint32_t role = 0; role < disks; role++)
            memcpy(buffer + (size_t)role * ROLE_BYTES + i * SECTOR, row_at(i) + role * SECTOR, SECTOR);
    printf("%2d disks, %-8s", disks, name);
    show("rows", data, timed(by_rows));
    at_once = ROWS;
    show("run", data, timed(by_runs));
    at_once = 8;
    show("runs of 8", data, timed(by_runs));
    printf("\n");
    fflush(stdout);
    for (int i = 0; i < ROWS; i++)
        for (uint32_t role = 0; role < disks; role++)
            if (memcmp(buffer + (size_t)role * ROLE_BYTES + i * SECTOR, row_at(i) + role * SECTOR, SECTOR) != 0) {
                printf("row %d differs in role %d\n", i, role);
                return 1;
            }
    return 0;
}

int main(void)
{
    static const uint32_t counts[] = {6, 8, 16};
    for (size_t c = 0; c < sizeof counts / sizeof counts[0]; c++) {
        disks = counts[c];
        int data = (int)disks - 2;
        if (measure("P and Q", data, both_by_rows, both_by_runs) || measure("P alone", data + 1, p_by_rows, p_by_runs)
            || measure("one lost", data, data_by_rows, data_by_runs) || measure("Q lost", data, q_by_rows, q_by_runs)
            || measure("two lost", data, two_by_rows, two_by_runs))
            return 1;
    }
    return 0;
}
