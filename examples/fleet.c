/* Opens a run, adds a fleet, prints the report, the same from a sheet, from a list and from two halves joined, balances it against
   sold fuel, and asks for a part of a year.
   Build it with examples/run.sh, or:
       gcc -O2 -Wall -Iinclude -o target/fleet_c examples/fleet.c target/libhaldurap.a */
#include <inttypes.h>
#include <stdio.h>
#include <stdlib.h>
#include <string.h>

#include "haldurap.h"

enum { PARTS = 3 };
static const haldurap_head head = {120, {100, 100, 100, 100, 100, 100, 100, 100, 100, 100, 100, 100}, 0, 0};
static const haldurap_record fleet[PARTS] = {
    /* class, vehicles, km, shares, speeds */
    {2, 1000, 10000, {40, 40, 20}, {20, 60, 100}},
    {6, 2500, 18000, {30, 45, 25}, {25, 70, 110}},
    {4, 300, 12000, {55, 30, 15}, {30, 65, 95}},
};
static const char *const names[] = {"CO", "NOX", "VOC", "PM", "FC"};

/* Tonnes sold of each fuel. */
static const uint64_t sold[] = {1000, 4400, 210};

static void stop_if(uint64_t number, const char *what) {
    if (number != HALDURAP_TAKEN) {
        fprintf(stderr, "%s: refused with %" PRIu64 "\n", what, number);
        exit(1);
    }
}

enum { SHEET_BYTES = HALDURAP_HEAD_BYTES + PARTS * HALDURAP_RECORD_BYTES };

/* The head and a fleet as the text of a sheet; sprintf puts a 0 behind it. */
static void write_sheet(char sheet[SHEET_BYTES + 1], const haldurap_record *records) {
    sheet += sprintf(sheet, "%5" PRIu64, head.trip);
    for (int month = 0; month < 12; month++) sheet += sprintf(sheet, "%5" PRId64, head.temps[month]);
    sheet += sprintf(sheet, "\n");
    for (int i = 0; i < PARTS; i++) {
        haldurap_record r = records[i];
        sheet += sprintf(sheet, "%2" PRIu64 "%7" PRIu64 "%7" PRIu64 "%4" PRIu64 "%4" PRIu64 "%4" PRIu64 "%4" PRIu64 "%4" PRIu64 "%4" PRIu64 "\n",
                         r.vehicle_class, r.vehicles, r.km, r.shares.urban, r.shares.rural, r.shares.highway,
                         r.speeds.urban, r.speeds.rural, r.speeds.highway);
    }
}

/* CO of gasoline from cold starts, grams, of the fleet under another head. */
static uint64_t cold_co(haldurap_head other) {
    haldurap_list_answer listed = haldurap_add_list(other, (const uint64_t *)fleet, PARTS * HALDURAP_RECORD_NUMBERS);
    stop_if(listed.number, "add_list");
    haldurap_grams_answer cold = haldurap_cold(listed.run, HALDURAP_GASOLINE, HALDURAP_CO);
    stop_if(cold.number, "cold");
    return cold.grams;
}

int main(void) {
    haldurap_layout_answer layout = haldurap_layout();
    if (layout.version != HALDURAP_LAYOUT || layout.size != sizeof(haldurap_run)) {
        fprintf(stderr, "haldurap.h does not fit this archive\n");
        return 1;
    }

    haldurap_run_answer opened = haldurap_open(head);
    stop_if(opened.number, "open");
    haldurap_run run = opened.run;

    for (int i = 0; i < PARTS; i++) {
        haldurap_run_answer added = haldurap_add(run, fleet[i]);
        stop_if(added.number, "add");
        run = added.run;
    }
    printf("records: %" PRIu64 "\n", run.count);

    uint8_t report[HALDURAP_REPORT_BYTES];
    haldurap_length_answer written = haldurap_report(run, report, sizeof report);
    stop_if(written.number, "report");
    fwrite(report, 1, written.bytes, stdout);

    /* The same head and fleet as the text of a sheet give the same report. Whether the sheet was taken is its own number. */
    char sheet[SHEET_BYTES + 1];
    write_sheet(sheet, fleet);
    uint8_t again[HALDURAP_REPORT_BYTES];
    haldurap_text_answer read = haldurap_report_sheet((const uint8_t *)sheet, SHEET_BYTES, again, sizeof again);
    stop_if(read.number, "report_sheet");
    stop_if(read.sheet_number, "sheet");
    int same = read.bytes == written.bytes && memcmp(again, report, read.bytes) == 0;
    printf("from a sheet: %s\n", same ? "the same" : "another report");

    /* And as a list of numbers, nine a record, which an array of records is. */
    haldurap_list_answer listed = haldurap_add_list(head, (const uint64_t *)fleet, PARTS * HALDURAP_RECORD_NUMBERS);
    stop_if(listed.number, "add_list");
    printf("from a list: %" PRIu64 " taken, %s\n", listed.taken, memcmp(&listed.run, &run, sizeof run) == 0 ? "the same" : "another run");

    /* And by two crews, each with its own run under the same head: the first has one record, the second the others. */
    haldurap_list_answer one = haldurap_add_list(head, (const uint64_t *)fleet, HALDURAP_RECORD_NUMBERS);
    haldurap_list_answer others = haldurap_add_list(head, (const uint64_t *)(fleet + 1), (PARTS - 1) * HALDURAP_RECORD_NUMBERS);
    stop_if(one.number, "add_list"), stop_if(others.number, "add_list");
    haldurap_run_answer joined = haldurap_join(one.run, others.run);
    stop_if(joined.number, "join");
    printf("from two crews: %" PRIu64 " and %" PRIu64 " records, joined %s\n", one.run.count, others.run.count,
           memcmp(&joined.run, &run, sizeof run) == 0 ? "the same" : "another run");

    for (uint64_t fuel = HALDURAP_GASOLINE; fuel <= HALDURAP_LPG; fuel++) {
        for (uint64_t quantity = HALDURAP_CO; quantity <= HALDURAP_FC; quantity++) {
            haldurap_balance_answer b = haldurap_balance(run, fuel, quantity, sold[fuel - 1]);
            stop_if(b.number, "balance");
            if (quantity == HALDURAP_CO)
                printf("fuel %" PRIu64 ": %" PRIu64 " t sold, k %" PRIu64 " in %" PRIu64 " digits\n", fuel, sold[fuel - 1], b.k, b.digits);
            printf("  %s %" PRIu64 " g\n", names[quantity - 1], b.grams);
        }
    }

    /* 1.8 hydrogen per carbon. */
    haldurap_grams_answer co2 = haldurap_co2(run, HALDURAP_GASOLINE, 1800);
    stop_if(co2.number, "co2");
    printf("CO2 of gasoline: %" PRIu64 " g\n", co2.grams);

    /* A mountain pass that is open from 15 May to 20 October 2026: cold starts go by the temperatures of these days, and without
       dates by those of all months. */
    haldurap_head pass = {186, {-78, -75, -48, -14, 36, 72, 98, 95, 61, 22, -34, -65}, 20260515, 20261020};
    printf("CO from cold starts, 15 May to 20 October 2026: %" PRIu64 " g\n", cold_co(pass));
    pass.first = pass.last = 0;
    printf("CO from cold starts, without dates: %" PRIu64 " g\n", cold_co(pass));

    /* A refusal is a number. A refused add gives the run as it was, a list passes the record over, a sheet is sent back. */
    haldurap_record wrong[PARTS];
    memcpy(wrong, fleet, sizeof wrong);
    wrong[1].speeds.highway = 131;
    haldurap_run_answer refused = haldurap_add(run, wrong[1]);
    printf("131 km/h, added: refused with %" PRIu64 ", records: %" PRIu64 "\n", refused.number, refused.run.count);
    listed = haldurap_add_list(head, (const uint64_t *)wrong, PARTS * HALDURAP_RECORD_NUMBERS);
    stop_if(listed.number, "add_list");
    printf("131 km/h in a list: %" PRIu64 " taken, the first refused at place %zu with %" PRIu64 "\n", listed.taken, listed.place, listed.refused);
    write_sheet(sheet, wrong);
    read = haldurap_report_sheet((const uint8_t *)sheet, SHEET_BYTES, again, sizeof again);
    stop_if(read.number, "report_sheet");
    if (read.sheet_number != HALDURAP_TAKEN)
        printf("131 km/h in a sheet: refused with %" PRIu64 " at line %zu\n", read.sheet_number, read.sheet_line);

    /* Runs of other trip lengths or temperatures are not joined: the first comes back. */
    haldurap_run_answer other = haldurap_open(pass);
    stop_if(other.number, "open");
    joined = haldurap_join(run, other.run);
    printf("joined with a run of the pass: refused with %" PRIu64 ", records: %" PRIu64 "\n", joined.number, joined.run.count);
    return 0;
}
