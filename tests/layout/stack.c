/* How much stack each call takes, the arguments and the answer included: on a thread whose stack was filled with one byte
   before, what is changed afterwards, less what a thread changes that does nothing. Each call is made twice, with a head without
   dates and with one of a whole year by dates. The header says less than 16 KB. */
#define _GNU_SOURCE
#include <pthread.h>
#include <stdio.h>
#include <stdlib.h>
#include <string.h>
#include <sys/mman.h>

#include "haldurap.h"

enum { ROOM = 1 << 18, MOST = 16384, FILL = 0xa5, RECORDS = 5001 };

static haldurap_head head = {120, {100, 100, 100, 100, 100, 100, 100, 100, 100, 100, 100, 100}, 0, 0};
static const haldurap_record record = {6, 1000, 10000, {40, 40, 20}, {20, 60, 100}};
static haldurap_run run;
static haldurap_areas areas, other;
static uint64_t numbers[RECORDS * HALDURAP_RECORD_NUMBERS];
static uint8_t text[HALDURAP_MOST_TEXT], buffer[HALDURAP_REPORT_BYTES];
static size_t length;
/* Answers are kept, so that no compiler leaves a call out. */
static volatile uint64_t kept;

static void nothing(void) { kept = 0; }
static void layout(void) { kept = haldurap_layout().version; }
static void open_run(void) { kept = haldurap_open(head).number; }
static void add(void) { kept = haldurap_add(run, record).number; }
static void join(void) { kept = haldurap_join(run, run).number; }
static void add_list(void) { kept = haldurap_add_list(head, numbers, RECORDS * HALDURAP_RECORD_NUMBERS).number; }
static void in_order(void) { kept = haldurap_in_order(run); }
static void open_areas(void) { kept = haldurap_open_areas(&other, HALDURAP_AREAS_NUMBERS, head); }
static void add_area(void) { kept = haldurap_add_area(&areas, HALDURAP_AREAS_NUMBERS, 15, record); }
static void area_run(void) { kept = haldurap_area_run(&areas, HALDURAP_AREAS_NUMBERS, 15).number; }
static void total(void) { kept = haldurap_total(run, 2, 1).number; }
static void urban(void) { kept = haldurap_urban(run, 2, 1).number; }
static void rural(void) { kept = haldurap_rural(run, 2, 1).number; }
static void highway(void) { kept = haldurap_highway(run, 2, 1).number; }
static void cold(void) { kept = haldurap_cold(run, 2, 1).number; }
static void balance(void) { kept = haldurap_balance(run, 2, 1, 1000).number; }
static void co2(void) { kept = haldurap_co2(run, 2, 1800).number; }
static void so2(void) { kept = haldurap_so2(run, 2, 100).number; }
static void lead(void) { kept = haldurap_lead(run, 2, 100).number; }
static void map_row(void) { kept = haldurap_map_row(run, 2, 1).number; }
static void figure_urban(void) { kept = haldurap_figure_urban(run, 2, 1).number; }
static void figure_rural(void) { kept = haldurap_figure_rural(run, 2, 1).number; }
static void figure_highway(void) { kept = haldurap_figure_highway(run, 2, 1).number; }
static void figure_cold(void) { kept = haldurap_figure_cold(run, 2, 1).number; }
static void report(void) { kept = haldurap_report(run, buffer, sizeof buffer).number; }
static void sheet(void) { kept = haldurap_sheet(text, length).number; }
static void report_sheet(void) { kept = haldurap_report_sheet(text, length, buffer, sizeof buffer).number; }

static void *call(void *work) {
    (*(void (**)(void))work)();
    return NULL;
}

/* The bytes of a thread's stack that are changed when this is called on it. */
static size_t taken(void (*work)(void)) {
    uint8_t *stack = mmap(NULL, ROOM, PROT_READ | PROT_WRITE, MAP_PRIVATE | MAP_ANONYMOUS, -1, 0);
    pthread_attr_t attributes;
    pthread_t thread;
    if (stack == MAP_FAILED) abort();
    memset(stack, FILL, ROOM);
    if (pthread_attr_init(&attributes) || pthread_attr_setstack(&attributes, stack, ROOM)) abort();
    if (pthread_create(&thread, &attributes, call, &work) || pthread_join(thread, NULL)) abort();
    size_t low = 0;
    while (low < ROOM && stack[low] == FILL) low++;
    munmap(stack, ROOM);
    return ROOM - low;
}

/* The longest sheet of the head. */
static void write_sheet(void) {
    length = (size_t)sprintf((char *)text, "%5d", 120);
    for (int month = 0; month < 12; month++) length += (size_t)sprintf((char *)text + length, "%5d", 100);
    if (head.first != 0) length += (size_t)sprintf((char *)text + length, "%9d%9d", (int)head.first, (int)head.last);
    length += (size_t)sprintf((char *)text + length, "\n");
    while (length + 50 < sizeof text) length += (size_t)sprintf((char *)text + length, " 6   1000  10000  40  40  20  20  60 100\n");
}

int main(void) {
    for (int i = 0; i < RECORDS; i++) memcpy(numbers + i * HALDURAP_RECORD_NUMBERS, &record, sizeof record);
    run = haldurap_add_list(head, numbers, 100 * HALDURAP_RECORD_NUMBERS).run;
    /* half of the areas in use, half empty */
    if (haldurap_open_areas(&areas, HALDURAP_AREAS_NUMBERS, head) != 0) abort();
    for (uint64_t area = 0; area < HALDURAP_AREAS; area += 2)
        if (haldurap_add_area(&areas, HALDURAP_AREAS_NUMBERS, area, record) != 0) abort();

    static const struct { const char *name; void (*work)(void); } calls[] = {
        {"layout", layout}, {"open", open_run}, {"add", add}, {"join", join}, {"add_list", add_list}, {"in_order", in_order},
        {"open_areas", open_areas}, {"add_area", add_area}, {"area_run", area_run}, {"total", total},
        {"urban", urban}, {"rural", rural}, {"highway", highway}, {"cold", cold}, {"balance", balance}, {"co2", co2}, {"so2", so2},
        {"lead", lead}, {"map_row", map_row}, {"figure_urban", figure_urban}, {"figure_rural", figure_rural},
        {"figure_highway", figure_highway}, {"figure_cold", figure_cold}, {"report", report}, {"sheet", sheet},
        {"report_sheet", report_sheet},
    };
    size_t before = taken(nothing), most = 0;
    const char *deepest = "";
    for (int dated = 0; dated < 2; dated++) {
        if (dated) head.first = 20000101, head.last = 20001231;
        write_sheet();
        if (haldurap_sheet(text, length).number != 0) abort();
        for (size_t i = 0; i < sizeof calls / sizeof calls[0]; i++) {
            size_t depth = taken(calls[i].work) - before;
            if (depth > most) most = depth, deepest = calls[i].name;
            if (depth >= MOST) printf("stack.c: %s takes %zu bytes of stack\n", calls[i].name, depth);
        }
    }
    printf("stack: at most %zu bytes (%s) of %zu calls, %s\n", most, deepest, sizeof calls / sizeof calls[0], most < MOST ? "below 16 KB" : "TOO MUCH");
    return most >= MOST;
}
