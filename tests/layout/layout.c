/* Compares sizeof and offsetof of every struct of haldurap.h with what the archive itself reads and writes.
   Each field is found by calls: what is put into it must have its effect, and no other; what comes back must stand
   there. The size of an answer that comes back in memory is the number of bytes that the archive writes. */
#include <inttypes.h>
#include <stdio.h>
#include <string.h>

#include "haldurap.h"

static int failed, checked;

static void same(uint64_t found, uint64_t wanted, const char *what, int i) {
    checked++;
    if (found != wanted) {
        printf("layout.c: %s [%d] is %" PRIu64 ", not %" PRIu64 "\n", what, i, found, wanted);
        failed = 1;
    }
}

#define SIZE(type, bytes) same(sizeof(type), bytes, "sizeof(" #type ")", 0)
#define PLACE(type, field, offset) FIELD(type, field, offset, 8)
#define FIELD(type, field, offset, bytes) ( \
        same(offsetof(type, field), offset, "offsetof(" #type ", " #field ")", 0), \
        same(sizeof(((type *)0)->field), bytes, "size of " #type "." #field, 0))

/* The header's own comments, as numbers. */
static void as_documented(void) {
    SIZE(haldurap_head, 120), PLACE(haldurap_head, trip, 0), FIELD(haldurap_head, temps, 8, 96);
    PLACE(haldurap_head, first, 104), PLACE(haldurap_head, last, 112);
    SIZE(haldurap_shares, 24), PLACE(haldurap_shares, urban, 0), PLACE(haldurap_shares, rural, 8), PLACE(haldurap_shares, highway, 16);
    SIZE(haldurap_speeds, 24), PLACE(haldurap_speeds, urban, 0), PLACE(haldurap_speeds, rural, 8), PLACE(haldurap_speeds, highway, 16);
    SIZE(haldurap_record, 72), PLACE(haldurap_record, vehicle_class, 0), PLACE(haldurap_record, vehicles, 8), PLACE(haldurap_record, km, 16);
    FIELD(haldurap_record, shares, 24, 24), FIELD(haldurap_record, speeds, 48, 24);
    SIZE(haldurap_run, 1368), PLACE(haldurap_run, trip, 0), FIELD(haldurap_run, x, 8, 128), PLACE(haldurap_run, count, 136);
    FIELD(haldurap_run, km, 144, 24), FIELD(haldurap_run, grams, 168, 480), FIELD(haldurap_run, rests, 648, 480);
    FIELD(haldurap_run, total_grams, 1128, 120), FIELD(haldurap_run, total_rests, 1248, 120);
    SIZE(haldurap_areas, 21896), FIELD(haldurap_areas, runs, 0, 21888), PLACE(haldurap_areas, common, 21888);
    same(sizeof(haldurap_areas), 8 * HALDURAP_AREAS_NUMBERS, "HALDURAP_AREAS_NUMBERS", 0);
    SIZE(haldurap_run_answer, 1376), PLACE(haldurap_run_answer, number, 0), FIELD(haldurap_run_answer, run, 8, 1368);
    SIZE(haldurap_grams_answer, 16), PLACE(haldurap_grams_answer, number, 0), PLACE(haldurap_grams_answer, grams, 8);
    SIZE(haldurap_balance_answer, 32), PLACE(haldurap_balance_answer, number, 0), PLACE(haldurap_balance_answer, k, 8);
    PLACE(haldurap_balance_answer, digits, 16), PLACE(haldurap_balance_answer, grams, 24);
    SIZE(haldurap_length_answer, 16), PLACE(haldurap_length_answer, number, 0), PLACE(haldurap_length_answer, bytes, 8);
    SIZE(haldurap_text_answer, 32), PLACE(haldurap_text_answer, number, 0), PLACE(haldurap_text_answer, bytes, 8);
    PLACE(haldurap_text_answer, sheet_number, 16), PLACE(haldurap_text_answer, sheet_line, 24);
    SIZE(haldurap_list_answer, 1400), PLACE(haldurap_list_answer, number, 0), PLACE(haldurap_list_answer, taken, 8);
    PLACE(haldurap_list_answer, place, 16), PLACE(haldurap_list_answer, refused, 24), FIELD(haldurap_list_answer, run, 32, 1368);
    SIZE(haldurap_map_row_answer, 40), PLACE(haldurap_map_row_answer, number, 0), PLACE(haldurap_map_row_answer, urban, 8);
    PLACE(haldurap_map_row_answer, rural, 16), PLACE(haldurap_map_row_answer, highway, 24), PLACE(haldurap_map_row_answer, cold, 32);
    SIZE(haldurap_figure_answer, 24), PLACE(haldurap_figure_answer, number, 0), PLACE(haldurap_figure_answer, given, 8);
    PLACE(haldurap_figure_answer, grams, 16);
    SIZE(haldurap_sheet_answer, 1384), PLACE(haldurap_sheet_answer, number, 0), PLACE(haldurap_sheet_answer, line, 8);
    FIELD(haldurap_sheet_answer, run, 16, 1368);
    SIZE(haldurap_layout_answer, 16), PLACE(haldurap_layout_answer, version, 0), PLACE(haldurap_layout_answer, size, 8);
}

static const haldurap_head head = {120, {100, 100, 100, 100, 100, 100, 100, 100, 100, 100, 100, 100}, 0, 0};
static const haldurap_record record = {2, 1000, 10000, {40, 40, 20}, {20, 60, 100}};
static const char text[] = "  120  100  100  100  100  100  100  100  100  100  100  100  100\n"
                           " 2   1000  10000  40  40  20  20  60 100\n"
                           " 0   1000  10000  40  40  20  20  60 100\n";
enum { TAKEN_BYTES = 107, REFUSED_BYTES = 148 };

#if defined(__x86_64__) && !defined(_WIN32)
/* An answer of more than 16 bytes is written to a place that the caller hands in as a first, hidden argument. Handing that
   in openly, twice with other bytes beforehand, shows which bytes the archive writes. */
enum { ROOM = 4096 };
static uint8_t zeros[ROOM], ones[ROOM];

static void written(size_t size, const char *what) {
    size_t first = 0, last = 0;
    while (first < ROOM && zeros[first] != ones[first]) first++;
    for (size_t i = 0; i < ROOM; i++) if (zeros[i] == ones[i]) last = i + 1;
    same(first, 0, what, -1);
    same(last, size, what, -2);
    for (size_t i = first; i < last; i++) if (zeros[i] != ones[i]) same(0, 1, what, (int)i);
    memset(zeros, 0, ROOM), memset(ones, 255, ROOM);
}

#define WRITTEN(type, call, parameters, ...) do { \
        void *(*raw) parameters = (void *(*) parameters)(void (*)(void))call; \
        raw(zeros, __VA_ARGS__), raw(ones, __VA_ARGS__); \
        written(sizeof(type), "bytes that " #call " writes"); \
    } while (0)

static haldurap_areas opened(void);

static void sizes_written(haldurap_run run) {
    memset(zeros, 0, ROOM), memset(ones, 255, ROOM);
    WRITTEN(haldurap_run_answer, haldurap_open, (void *, haldurap_head), head);
    WRITTEN(haldurap_run_answer, haldurap_add, (void *, haldurap_run, haldurap_record), run, record);
    haldurap_run other = run;
    for (other.trip = 120; other.trip <= 121; other.trip++)
        WRITTEN(haldurap_run_answer, haldurap_join, (void *, haldurap_run, haldurap_run), run, other);
    WRITTEN(haldurap_balance_answer, haldurap_balance, (void *, haldurap_run, uint64_t, uint64_t, uint64_t), run, 1, 1, 1000);
    WRITTEN(haldurap_map_row_answer, haldurap_map_row, (void *, haldurap_run, uint64_t, uint64_t), run, 1, 1);
    WRITTEN(haldurap_figure_answer, haldurap_figure_urban, (void *, haldurap_run, uint64_t, uint64_t), run, 1, 1);
    WRITTEN(haldurap_figure_answer, haldurap_figure_rural, (void *, haldurap_run, uint64_t, uint64_t), run, 1, 1);
    WRITTEN(haldurap_figure_answer, haldurap_figure_highway, (void *, haldurap_run, uint64_t, uint64_t), run, 1, 1);
    WRITTEN(haldurap_figure_answer, haldurap_figure_cold, (void *, haldurap_run, uint64_t, uint64_t), run, 1, 1);
    WRITTEN(haldurap_sheet_answer, haldurap_sheet, (void *, const uint8_t *, size_t), (const uint8_t *)"x", 1);
    uint8_t buffer[400];
    for (size_t room = 16; room <= 17; room++)
        WRITTEN(haldurap_text_answer, haldurap_report_sheet, (void *, const uint8_t *, size_t, uint8_t *, size_t), (const uint8_t *)"x", 1, buffer, room);
    for (size_t length = 8; length <= 9; length++)
        WRITTEN(haldurap_list_answer, haldurap_add_list, (void *, haldurap_head, const uint64_t *, size_t), head, (const uint64_t *)&record, length);
    const haldurap_areas a = opened();
    for (uint64_t area = 15; area <= 16; area++)
        WRITTEN(haldurap_run_answer, haldurap_area_run, (void *, const haldurap_areas *, size_t, uint64_t), &a, HALDURAP_AREAS_NUMBERS, area);
}
#else
static void sizes_written(haldurap_run run) { (void)run; }
#endif

/* Beyond the lower half of a word. */
#define HIGH (1ull << 32)

/* Each field of a head and a record: a bad value is refused with its own number, a good one has its own effect. */
static void inputs(haldurap_run run) {
    haldurap_head h = head;
    h.trip = 9;
    same(haldurap_open(h).number, HALDURAP_TRIP_LENGTH, "head.trip", 0);
    h.trip = HIGH + 120;
    same(haldurap_open(h).number, HALDURAP_TRIP_LENGTH, "head.trip", 1);
    for (int i = 0; i < 12; i++) {
        h = head, h.temps[i] = -301;
        same(haldurap_open(h).number, HALDURAP_TEMPERATURE, "head.temps", i);
        h = head, h.temps[i] = (int64_t)HIGH + 100;
        same(haldurap_open(h).number, HALDURAP_TEMPERATURE, "head.temps", i);
    }
    haldurap_record r;
#define REFUSED(field, wrong, why) do { \
        r = record, r.field = wrong, same(haldurap_add(run, r).number, why, "record." #field, 0); \
        r = record, r.field += HIGH, same(haldurap_add(run, r).number, why, "record." #field, 1); \
    } while (0)
    REFUSED(vehicle_class, 0, HALDURAP_CLASS);
    REFUSED(vehicles, 0, HALDURAP_VEHICLES);
    REFUSED(km, 0, HALDURAP_KILOMETRES);
    REFUSED(shares.urban, 41, HALDURAP_SHARES);
    REFUSED(shares.rural, 41, HALDURAP_SHARES);
    REFUSED(shares.highway, 21, HALDURAP_SHARES);
    REFUSED(speeds.urban, 9, HALDURAP_SPEED);
    REFUSED(speeds.rural, 9, HALDURAP_SPEED);
    REFUSED(speeds.highway, 9, HALDURAP_SPEED);
    /* the whole distance on one road: CO of class 2 at 20, 60 and 100 km/h */
    r = record, r.shares = (haldurap_shares){100, 0, 0};
    same(haldurap_add(run, r).run.grams[0], 15095000, "urban grams", 0);
    r = record, r.shares = (haldurap_shares){0, 100, 0};
    same(haldurap_add(run, r).run.grams[1], 15295000, "rural grams", 0);
    r = record, r.shares = (haldurap_shares){0, 0, 100};
    same(haldurap_add(run, r).run.grams[2], 34695000, "highway grams", 0);
}

enum { RUN_WORDS = 171, TOTALS = 15 };

/* The run with each total made the sum of its four kinds, so that nothing but its other values is tried. */
static haldurap_run settled(haldurap_run r) {
    for (int i = 0; i < TOTALS; i++) {
        uint64_t grams = 0, rests = 0;
        for (int j = 4 * i; j < 4 * i + 4; j++) grams += r.grams[j], rests += r.rests[j];
        r.total_grams[i] = grams + rests / 1000000000, r.total_rests[i] = rests % 1000000000;
    }
    return r;
}

/* Each total: it goes with the four kinds of its place and with no other, to the gram and to the billionth, its rest below 10^9. */
static void totals(haldurap_run fresh) {
    haldurap_run good, r;
#define BROKEN(change) \
        r = good, change, same(haldurap_total(r, (uint64_t)i / 5 + 1, (uint64_t)i % 5 + 1).number, HALDURAP_RUN_ORDER, #change, i)
    for (int i = 0; i < TOTALS; i++) {
        for (int j = 0; j < 60; j++) {
            r = fresh, r.count = 3, r.grams[j] = 7, r.rests[j] = 5, r.total_grams[i] = 7, r.total_rests[i] = 5;
            haldurap_grams_answer a = haldurap_total(r, (uint64_t)i / 5 + 1, (uint64_t)i % 5 + 1);
            same(a.number, j / 4 == i ? 0 : HALDURAP_RUN_ORDER, "run.total_grams, run.total_rests", i), same(a.grams, j / 4 == i ? 7 : 0, "total", i);
        }
        /* four rests of 300,000,000: a gram and 200,000,000; of 250,000,000: a gram and no rest */
        good = fresh, good.count = 3;
        for (int j = 4 * i; j < 4 * i + 4; j++) good.grams[j] = 1000, good.rests[j] = 300000000;
        good.total_grams[i] = 4001, good.total_rests[i] = 200000000;
        same(haldurap_in_order(good), 1, "run.total_grams, run.total_rests", i);
        BROKEN(r.total_grams[i] += 1);
        BROKEN(r.total_grams[i] -= 1);
        BROKEN(r.total_rests[i] += 1);
        BROKEN(r.total_rests[i] -= 1);
        BROKEN((r.total_grams[i] -= 1, r.total_rests[i] += 1000000000));
        for (int j = 4 * i; j < 4 * i + 4; j++) good.rests[j] = 250000000;
        good.total_rests[i] = 0;
        same(haldurap_in_order(good), 1, "run.total_grams, run.total_rests", i);
        BROKEN((r.total_grams[i] -= 1, r.total_rests[i] = 1000000000));
        BROKEN((r.total_grams[i] -= 1, r.total_rests[i] = 999999999));
    }
}

/* Each word of a run: its limit tells the field, and its effect tells the place in it. */
static void runs(haldurap_run fresh) {
    typedef haldurap_grams_answer question(haldurap_run, uint64_t, uint64_t);
    static question *const kinds[] = {haldurap_urban, haldurap_rural, haldurap_highway, haldurap_cold};
    static const uint64_t class_of[] = {2, 6, 4};
    static const int fuel_of[] = {0, 0, 0, 2, 0, 1, 1};
    haldurap_run r;
#define LIMIT(field, most, i) do { \
        r = fresh, r.count = 3, r.field = most; \
        same(haldurap_total(settled(r), 1, 1).number, 0, "run." #field " at its limit", i); \
        r = fresh, r.count = 3, r.field = most + 1; \
        same(haldurap_total(settled(r), 1, 1).number, HALDURAP_RUN_ORDER, "run." #field " over it", i); \
    } while (0)
    LIMIT(trip, 200ull, 0);
    LIMIT(count, 5000ull, 0);
    for (int i = 0; i < 16; i++) LIMIT(x[i], 4900000000ull, i);
    for (int i = 0; i < 3; i++) LIMIT(km[i], 3000000000ull, i);
    for (int i = 0; i < 60; i++) LIMIT(grams[i], 3000000000000ull, i);
    for (int i = 0; i < 60; i++) LIMIT(rests[i], 999999999ull, i);

    for (int i = 0; i < 60; i++) {
        /* a sum alone in the run is printed at its fuel, quantity and kind, and nowhere else */
        r = fresh, r.count = 3, r.grams[i] = 1000 + (uint64_t)i, r.rests[i] = 500000000, r = settled(r);
        for (int j = 0; j < 60; j++)
            same(kinds[j % 4](r, j / 20 + 1, j / 4 % 5 + 1).grams, i == j ? 1001 + (uint64_t)i : 0, "run.grams, run.rests", i);
    }
    totals(fresh);
    for (int i = 0; i < 16; i++) {
        /* X of 1: the cold factor is E, so the cold grams are those of the whole distance at the urban speed, of each class
           and quantity whose X this is; the last is that of CO of class 3 and of nothing else, class 5 has none */
        for (uint64_t class = 1; class <= 7; class++) {
            haldurap_record all = record;
            all.vehicle_class = class, all.shares = (haldurap_shares){100, 0, 0};
            r = fresh, memset(r.x, 0, sizeof r.x), r.x[i] = 1000000000;
            haldurap_run_answer a = haldurap_add(r, all);
            for (int q = 0; q < 5; q++) {
                const uint64_t *sums = a.run.grams + fuel_of[class - 1] * 20 + q * 4;
                int place = class == 3 && q == 0 ? 15 : fuel_of[class - 1] * 5 + q;
                same(sums[3], class != 5 && place == i ? sums[0] : 0, "run.x", i);
            }
        }
    }
    for (int f = 0; f < 3; f++) {
        haldurap_record one = record;
        one.vehicle_class = class_of[f];
        r = fresh, r.count = 7, r.km[0] = 1, r.km[1] = 2, r.km[2] = 3;
        haldurap_run_answer a = haldurap_add(r, one);
        same(a.run.count, 8, "run.count", f);
        for (int g = 0; g < 3; g++) same(a.run.km[g], (uint64_t)g + 1 + (f == g ? 10000000 : 0), "run.km", g);
    }
}

static void answers(haldurap_run run) {
    haldurap_run_answer a = haldurap_open(head);
    static const uint64_t x[] = {532440000, 23664000, 354960000, 0, 112404000};
    same(a.number, 0, "run_answer.number", 0), same(a.run.trip, 120, "run_answer.run.trip", 0), same(a.run.count, 0, "run_answer.run.count", 0);
    for (int i = 0; i < 5; i++) same(a.run.x[i], x[i], "run_answer.run.x", i);
    same(a.run.x[15], 383356800, "run_answer.run.x", 15);
    static const uint64_t printed[TOTALS] = {27132182, 4195387, 1919776, 0, 962235860};
    for (int i = 0; i < TOTALS; i++) {
        same(a.run.total_grams[i], 0, "run_answer.run.total_grams", i), same(a.run.total_rests[i], 0, "run_answer.run.total_rests", i);
        same(run.total_grams[i], printed[i], "run_answer.run.total_grams", i), same(run.total_rests[i], 0, "run_answer.run.total_rests", i);
    }
    same(haldurap_add(run, (haldurap_record){0}).number, HALDURAP_CLASS, "run_answer.number", 1);
    haldurap_grams_answer g = haldurap_total(run, 1, 1);
    same(g.number, 0, "grams_answer.number", 0), same(g.grams, 27132182, "grams_answer.grams", 0);
    g = haldurap_total(run, 4, 1);
    same(g.number, HALDURAP_FUEL_OR_QUANTITY, "grams_answer.number", 1), same(g.grams, 0, "grams_answer.grams", 1);
    haldurap_balance_answer b = haldurap_balance(run, 1, 1, 1000);
    same(b.number, 0, "balance_answer.number", 0), same(b.k, 1039246, "balance_answer.k", 0);
    same(b.digits, 12, "balance_answer.digits", 0), same(b.grams, 28197012, "balance_answer.grams", 0);
    b = haldurap_balance(run, 1, 1, 481);
    same(b.number, HALDURAP_SOLD_FUEL, "balance_answer.number", 1), same(b.k, 0, "balance_answer.k", 1);
    same(b.digits, 0, "balance_answer.digits", 1), same(b.grams, 0, "balance_answer.grams", 1);
    /* 1 t over 1.25 t: the seventh digit is the last */
    haldurap_run few = run;
    memset(few.grams + 16, 0, 4 * sizeof few.grams[0]), memset(few.rests + 16, 0, 4 * sizeof few.rests[0]), few.grams[17] = 1250000, few = settled(few);
    b = haldurap_balance(few, 1, 1, 1);
    same(b.number, 0, "balance_answer.number", 2), same(b.k, 800000, "balance_answer.k", 2);
    same(b.digits, 7, "balance_answer.digits", 2), same(b.grams, 21705746, "balance_answer.grams", 2);
    uint8_t buffer[400];
    haldurap_length_answer l = haldurap_report(run, buffer, 400);
    same(l.number, 0, "length_answer.number", 0), same(l.bytes, 388, "length_answer.bytes", 0);
    same(haldurap_report(run, buffer, 387).number, HALDURAP_SHORT_BUFFER, "length_answer.number", 1);
    haldurap_map_row_answer m = haldurap_map_row(run, 1, 1);
    same(m.number, 0, "map_row_answer.number", 0), same((uint64_t)m.urban, 6038000, "map_row_answer.urban", 0);
    same((uint64_t)m.rural, 6118000, "map_row_answer.rural", 0), same((uint64_t)m.highway, 6939000, "map_row_answer.highway", 0);
    same((uint64_t)m.cold, 8037182, "map_row_answer.cold", 0);
    same(haldurap_map_row(run, 0, 1).number, HALDURAP_FUEL_OR_QUANTITY, "map_row_answer.number", 1);
    haldurap_figure_answer f = haldurap_figure_cold(run, 1, 1);
    same(f.number, 0, "figure_answer.number", 0), same(f.given, 1, "figure_answer.given", 0), same((uint64_t)f.grams, 8037182, "figure_answer.grams", 0);
    f = haldurap_figure_cold(run, 1, HALDURAP_PM);
    same(f.number, 0, "figure_answer.number", 1), same(f.given, 0, "figure_answer.given", 1);
    same(haldurap_figure_cold(run, 1, 6).number, HALDURAP_FUEL_OR_QUANTITY, "figure_answer.number", 2);
    haldurap_layout_answer y = haldurap_layout();
    same(y.version, HALDURAP_LAYOUT, "layout_answer.version", 0), same(y.size, sizeof(haldurap_run), "layout_answer.size", 0);
    haldurap_sheet_answer s = haldurap_sheet((const uint8_t *)text, TAKEN_BYTES);
    same(s.number, 0, "sheet_answer.number", 0), same(s.line, 0, "sheet_answer.line", 0);
    same(memcmp(&s.run, &run, sizeof run), 0, "sheet_answer.run", 0);
    s = haldurap_sheet((const uint8_t *)text, REFUSED_BYTES);
    same(s.number, HALDURAP_CLASS, "sheet_answer.number", 1), same(s.line, 3, "sheet_answer.line", 1);
}

/* The sheet's own number and line beside the length and the number 14. */
static void texts(void) {
    static const struct {
        size_t text, buffer;
        uint64_t number;
        size_t bytes;
        uint64_t sheet_number;
        size_t sheet_line;
    } wanted[] = {
        {TAKEN_BYTES, 388, 0, 388, 0, 0},
        {TAKEN_BYTES, 387, HALDURAP_SHORT_BUFFER, 0, 0, 0},
        {REFUSED_BYTES, 17, 0, 17, HALDURAP_CLASS, 3},
        {REFUSED_BYTES, 16, HALDURAP_SHORT_BUFFER, 0, HALDURAP_CLASS, 3},
        {0, 17, 0, 17, HALDURAP_LINE_SHAPE, 1},
        {66, 0, 0, 0, 0, 0},
    };
    for (int i = 0; i < (int)(sizeof wanted / sizeof wanted[0]); i++) {
        uint8_t buffer[400];
        haldurap_text_answer a = haldurap_report_sheet((const uint8_t *)text, wanted[i].text, buffer, wanted[i].buffer);
        same(a.number, wanted[i].number, "text_answer.number", i), same(a.bytes, wanted[i].bytes, "text_answer.bytes", i);
        same(a.sheet_number, wanted[i].sheet_number, "text_answer.sheet_number", i);
        same(a.sheet_line, wanted[i].sheet_line, "text_answer.sheet_line", i);
    }
}

/* A list: each value of the answer by itself, and an array of records is the list of their numbers. */
static void lists(haldurap_run run) {
    haldurap_record records[5] = {record, record, record, record, record};
    const uint64_t *numbers = (const uint64_t *)records;
    haldurap_list_answer a = haldurap_add_list(head, numbers, 9);
    same(a.number, 0, "list_answer.number", 0), same(a.taken, 1, "list_answer.taken", 0), same(a.place, 0, "list_answer.place", 0);
    same(a.refused, 0, "list_answer.refused", 0), same(memcmp(&a.run, &run, sizeof run), 0, "list_answer.run", 0);
    a = haldurap_add_list(head, numbers, 0);
    same(a.number, 0, "list_answer.number", 1), same(a.taken, 0, "list_answer.taken", 1), same(a.run.trip, 120, "list_answer.run", 1);
    for (size_t length = 1; length < 9; length++) {
        a = haldurap_add_list(head, numbers, length);
        same(a.number, HALDURAP_LINE_SHAPE, "list_answer.number", (int)length), same(a.taken, 0, "list_answer.taken", (int)length);
        same(a.run.trip, 0, "list_answer.run", (int)length);
    }
    haldurap_head cold = head;
    cold.trip = 9;
    same(haldurap_add_list(cold, numbers, 9).number, HALDURAP_TRIP_LENGTH, "list_answer.number", 9);
    same(haldurap_add_list(cold, numbers, 8).number, HALDURAP_LINE_SHAPE, "list_answer.number", 10);
    /* a number beyond its limit, in each of the nine places of the third record */
    static const uint64_t why[] = {HALDURAP_CLASS, HALDURAP_VEHICLES, HALDURAP_KILOMETRES, HALDURAP_SHARES, HALDURAP_SHARES, HALDURAP_SHARES,
                                   HALDURAP_SPEED, HALDURAP_SPEED, HALDURAP_SPEED};
    for (int i = 0; i < HALDURAP_RECORD_NUMBERS; i++) {
        uint64_t wrong[5 * HALDURAP_RECORD_NUMBERS];
        memcpy(wrong, records, sizeof wrong);
        wrong[2 * HALDURAP_RECORD_NUMBERS + i] += HIGH;
        a = haldurap_add_list(head, wrong, 5 * HALDURAP_RECORD_NUMBERS);
        same(a.number, 0, "list_answer.number", i), same(a.taken, 4, "list_answer.taken", i), same(a.place, 3, "list_answer.place", i);
        same(a.refused, why[i], "list_answer.refused", i), same(a.run.count, 4, "list_answer.run", i);
    }
    /* each number of a record where the record has it: the list's run is that of the add */
    for (int i = 0; i < HALDURAP_RECORD_NUMBERS; i++) {
        haldurap_record one = {2, 1000, 10000, {40, 40, 20}, {20, 60, 100}};
        uint64_t *place = (uint64_t *)&one + i;
        if (i < 3 || i > 5) *place += 1; else *place += 10, ((uint64_t *)&one)[3 + (i - 2) % 3] -= 10;
        haldurap_run_answer added = haldurap_add(haldurap_open(head).run, one);
        a = haldurap_add_list(head, (const uint64_t *)&one, HALDURAP_RECORD_NUMBERS);
        same(added.number, 0, "changed record", i), same(memcmp(&a.run, &added.run, sizeof a.run), 0, "list_answer.run", 100 + i);
        same(memcmp(&a.run, &run, sizeof run) != 0, 1, "changed run", i);
    }
}

/* In order, and each word out of it. */
static void orders(haldurap_run run) {
    same(haldurap_in_order(run), 1, "in_order", 0), same(haldurap_in_order(haldurap_open(head).run), 1, "in_order", 1);
    for (int i = 0; i < RUN_WORDS; i++) {
        haldurap_run bad = run;
        ((uint64_t *)&bad)[i] |= 1ull << 63;
        same(haldurap_in_order(bad), 0, "in_order of a damaged word", i);
    }
}

/* A join gives this number, and this run, every word of it. */
static void joined(haldurap_run first, haldurap_run second, uint64_t number, haldurap_run wanted, const char *what, int i) {
    haldurap_run_answer a = haldurap_join(first, second);
    same(a.number, number, what, i), same(memcmp(&a.run, &wanted, sizeof wanted), 0, what, i);
}

/* Joining: each word of the first and of the second run has its effect at its place; refused, the first comes back. */
static void joins(haldurap_run fresh, haldurap_run run) {
    haldurap_run first = fresh, second = fresh, both = fresh, bad;
    first.count = 3, second.count = 4, both.count = 7;
    for (int i = 0; i < 3; i++) first.km[i] = 10 + (uint64_t)i, second.km[i] = 200 + 7 * (uint64_t)i, both.km[i] = 210 + 8 * (uint64_t)i;
    for (int i = 0; i < 60; i++) {
        /* every other place with a carry */
        const uint64_t n = (uint64_t)i, more = n % 2;
        first.grams[i] = 1000 + n, second.grams[i] = 50000 + 7 * n, both.grams[i] = 51000 + 8 * n + more;
        first.rests[i] = 600000000 + n, second.rests[i] = 100000000 + more * 300000000, both.rests[i] = 700000000 + n - more * 700000000;
    }
    first = settled(first), second = settled(second), both = settled(both);
    joined(first, second, 0, both, "join", 0), joined(second, first, 0, both, "join", 1);
    joined(first, fresh, 0, first, "join with a fresh run", 0), joined(fresh, first, 0, first, "join with a fresh run", 1);
    joined(fresh, fresh, 0, fresh, "join of fresh runs", 0);
    /* the run of two records, added or joined */
    joined(run, run, 0, haldurap_add(run, record).run, "join of two records", 0);
    /* L and each X, good by themselves, but another head's */
    for (int i = 0; i < 17; i++) {
        bad = second, ((uint64_t *)&bad)[i] += 1;
        joined(first, bad, HALDURAP_HEADS_DIFFER, first, "join of other heads", i);
        joined(bad, first, HALDURAP_HEADS_DIFFER, bad, "join of other heads", i);
    }
    /* each word out of its range, in either run: before the others */
    for (int i = 0; i < RUN_WORDS; i++) {
        bad = second, bad.count = 4998, bad.x[15] += 1, ((uint64_t *)&bad)[i] |= 1ull << 63;
        joined(first, bad, HALDURAP_RUN_ORDER, first, "join with a damaged word", i);
        joined(bad, first, HALDURAP_RUN_ORDER, bad, "join with a damaged word", i);
        joined(bad, bad, HALDURAP_RUN_ORDER, bad, "join with a damaged word", i);
    }
    /* 5,000 records together, and one more; other heads come before that */
    static const uint64_t counts[][2] = {{5000, 0}, {0, 5000}, {4999, 1}, {2500, 2500}, {5000, 1}, {1, 5000}, {2500, 2501}, {5000, 5000}};
    for (int i = 0; i < 8; i++) {
        first = second = both = fresh, first.count = counts[i][0], second.count = counts[i][1], both.count = first.count + second.count;
        joined(first, second, i < 4 ? 0 : HALDURAP_FULL_TOGETHER, i < 4 ? both : first, "join of 5,000 records", i);
        second.x[0] += 1;
        joined(first, second, HALDURAP_HEADS_DIFFER, first, "join of 5,000 records", 100 + i);
    }
}

/* Lent areas, with numbers in front and behind that no call may touch. */
static struct lent {
    uint64_t front;
    haldurap_areas areas;
    uint64_t behind[HALDURAP_AREAS_NUMBERS];
} lent, before;

static haldurap_areas opened(void) {
    haldurap_areas a;
    same(haldurap_open_areas(&a, HALDURAP_AREAS_NUMBERS, head), 0, "open_areas", 0);
    return a;
}

/* Whether the lent numbers are those of before, byte for byte. */
static void stays(const char *what, int i) {
    same(memcmp(&lent, &before, sizeof lent), 0, what, i);
}

/* Adding to an area and asking for its run give these numbers; a refused add leaves every number, a refused run is zeros. */
static void tried(uint64_t adding, uint64_t asking, uint64_t area, const char *what, int i) {
    static const haldurap_run zero;
    before = lent;
    haldurap_run_answer a = haldurap_area_run(&lent.areas, HALDURAP_AREAS_NUMBERS, area);
    same(a.number, asking, what, i), same(memcmp(&a.run, asking ? &zero : &lent.areas.runs[area], sizeof zero), 0, what, i), stays(what, i);
    same(haldurap_add_area(&lent.areas, HALDURAP_AREAS_NUMBERS, area, record), adding, what, i);
    if (adding != 0) stays(what, i);
    lent = before;
}

/* Areas: every run and the common use by calls, as runs are tried above. */
static void areas(haldurap_run fresh) {
    static const haldurap_run zero;
    static const haldurap_areas nothing;
    haldurap_run_answer a;
    /* opened over ones: every number of the areas is written, and no other */
    memset(&lent, 255, sizeof lent), before = lent;
    for (int i = 0; i < 16; i++) before.areas.runs[i] = fresh;
    before.areas.common = 0;
    same(haldurap_open_areas(&lent.areas, HALDURAP_AREAS_NUMBERS, head), 0, "open_areas", 1), stays("opened areas", 0);
    static const uint64_t grounds[] = {HALDURAP_DAY_ORDER, HALDURAP_NO_DAY, HALDURAP_TEMPERATURE, HALDURAP_TRIP_LENGTH};
    haldurap_head wrong = head;
    for (int i = 0; i < 4; i++) {
        /* a refused head: zeros; each ground comes before those that are there already */
        if (i == 0) wrong.first = 20260516, wrong.last = 20260515;
        if (i == 1) wrong.last = 20260532;
        if (i == 2) wrong.temps[11] = 401;
        if (i == 3) wrong.trip = 9;
        memset(&lent, 255, sizeof lent), before = lent, before.areas = nothing;
        same(haldurap_open_areas(&lent.areas, HALDURAP_AREAS_NUMBERS, wrong), grounds[i], "open_areas", 2);
        stays("areas of a refused head", i);
    }
    tried(16, 16, 0, "areas of zeros", 0);
    tried(16, 16, 16, "areas of zeros", 1);
    /* another length, 16 before all else, and every number stays */
    static const size_t lengths[] = {0, 1, 171, 2257, 2736, 2738, 5474};
    lent.areas = opened();
    for (int i = 0; i < 7; i++) {
        before = lent;
        same(haldurap_open_areas(&lent.areas, lengths[i], head), HALDURAP_RUN_ORDER, "length in open_areas", i);
        same(haldurap_open_areas(&lent.areas, lengths[i], wrong), HALDURAP_RUN_ORDER, "length in open_areas", i);
        same(haldurap_add_area(&lent.areas, lengths[i], 3, record), HALDURAP_RUN_ORDER, "length in add_area", i);
        same(haldurap_add_area(&lent.areas, lengths[i], 16, (haldurap_record){0}), HALDURAP_RUN_ORDER, "length in add_area", i);
        a = haldurap_area_run(&lent.areas, lengths[i], i % 2 ? 3 : 16);
        same(a.number, HALDURAP_RUN_ORDER, "length in area_run", i), same(memcmp(&a.run, &zero, sizeof zero), 0, "run of zeros", i);
        stays("areas of another length", i);
    }
    /* no such area, before the record's own numbers; no cut to the lower half of a word */
    static const uint64_t none[] = {16, 17, HIGH, HIGH + 3, UINT64_MAX};
    for (int i = 0; i < 5; i++) {
        before = lent;
        same(haldurap_add_area(&lent.areas, HALDURAP_AREAS_NUMBERS, none[i], record), HALDURAP_NO_AREA, "area in add_area", i);
        same(haldurap_add_area(&lent.areas, HALDURAP_AREAS_NUMBERS, none[i], (haldurap_record){0}), HALDURAP_NO_AREA, "area in add_area", i);
        a = haldurap_area_run(&lent.areas, HALDURAP_AREAS_NUMBERS, none[i]);
        same(a.number, HALDURAP_NO_AREA, "area in area_run", i), same(memcmp(&a.run, &zero, sizeof zero), 0, "run of zeros", i);
        stays("areas without this one", i);
    }
    /* a record of its own in each area: its run is that of haldurap_add, and nothing else changes */
    for (int i = 0; i < 16; i++) {
        haldurap_record own = record;
        own.vehicle_class = (uint64_t)i % 7 + 1, own.vehicles += (uint64_t)i;
        before = lent, before.areas.runs[i] = haldurap_add(fresh, own).run;
        same(haldurap_add_area(&lent.areas, HALDURAP_AREAS_NUMBERS, (uint64_t)i, own), 0, "add_area", i), stays("areas with a record", i);
    }
    for (int i = 0; i < 16; i++) {
        a = haldurap_area_run(&lent.areas, HALDURAP_AREAS_NUMBERS, (uint64_t)i);
        same(a.number, 0, "area_run", i), same(memcmp(&a.run, &lent.areas.runs[i], sizeof a.run), 0, "run of an area", i);
        stays("areas that were asked", i);
    }
    /* joined one after the other: a run with the sixteen records, and the areas stay */
    haldurap_run all = fresh, single = fresh;
    for (int i = 0; i < 16; i++) {
        haldurap_record own = record;
        own.vehicle_class = (uint64_t)i % 7 + 1, own.vehicles += (uint64_t)i;
        before = lent, single = haldurap_add(single, own).run;
        a = haldurap_join(all, haldurap_area_run(&lent.areas, HALDURAP_AREAS_NUMBERS, (uint64_t)i).run), all = a.run;
        same(a.number, 0, "join of areas", i), same(memcmp(&all, &single, sizeof all), 0, "join of areas", i), stays("areas that were joined", i);
    }
    /* each field of a record is refused with its own number, as in haldurap_add */
    static const uint64_t why[] = {HALDURAP_CLASS, HALDURAP_VEHICLES, HALDURAP_KILOMETRES, HALDURAP_SHARES, HALDURAP_SHARES, HALDURAP_SHARES,
                                   HALDURAP_SPEED, HALDURAP_SPEED, HALDURAP_SPEED};
    for (int i = 0; i < HALDURAP_RECORD_NUMBERS; i++) {
        haldurap_record one = record;
        ((uint64_t *)&one)[i] += HIGH, before = lent;
        same(haldurap_add_area(&lent.areas, HALDURAP_AREAS_NUMBERS, 3, one), why[i], "record in add_area", i), stays("areas without a record", i);
    }
    /* each number out of its range, whichever area is asked */
    haldurap_areas good = lent.areas;
    for (int i = 0; i < HALDURAP_AREAS_NUMBERS; i++)
        lent.areas = good, ((uint64_t *)&lent.areas)[i] |= 1ull << 63, tried(16, 16, (uint64_t)i % 17, "areas with a damaged number", i);
    for (int i = 0; i < 16; i++) {
        const uint64_t area = (uint64_t)i, other = (area + 5) % 16;
        haldurap_run *r = &lent.areas.runs[i];
        /* each limit of a run, in each area: the last good value is taken, the next is not */
#define AREA_LIMIT(field, most) do { \
            lent.areas = good, *r = fresh, r->count = 3, r->field = most, *r = settled(*r); \
            tried(0, 0, other, "areas." #field " at its limit", i); \
            lent.areas = good, *r = fresh, r->count = 3, r->field = most + 1, *r = settled(*r); \
            tried(16, 16, other, "areas." #field " over it", i); \
        } while (0)
        for (int j = 0; j < 3; j++) AREA_LIMIT(km[j], 3000000000ull);
        for (int j = 0; j < 60; j++) AREA_LIMIT(grams[j], 3000000000000ull);
        for (int j = 0; j < 60; j++) AREA_LIMIT(rests[j], 999999999ull);
        /* each total off by one gram and by one billionth */
        for (int j = 0; j < TOTALS; j++) {
            lent.areas = good, r->total_grams[j] ^= 1, tried(16, 16, other, "areas.total_grams", j);
            lent.areas = good, r->total_rests[j] ^= 1, tried(16, 16, other, "areas.total_rests", j);
        }
        /* L and each X, good by themselves, but another head's */
        lent.areas = good, r->trip = 121, tried(16, 16, other, "areas.trip of another head", i);
        for (int j = 0; j < 16; j++) {
            lent.areas = good, r->x[j] += 1, tried(16, 16, other, "areas.x of another head", i);
            lent.areas = good;
            for (int k = 0; k < 16; k++) lent.areas.runs[k].x[j] = 4900000000;
            tried(0, 0, area, "areas.x at its limit", j);
            for (int k = 0; k < 16; k++) lent.areas.runs[k].x[j] = 4900000001;
            tried(16, 16, area, "areas.x over it", j);
        }
        for (uint64_t trip = 200; trip <= 201; trip++) {
            lent.areas = good;
            for (int k = 0; k < 16; k++) lent.areas.runs[k].trip = trip;
            tried(trip == 200 ? 0 : 16, trip == 200 ? 0 : 16, area, "areas.trip, the same in all", i);
        }
        /* count and common: common is what this area has beyond 300 and the other beyond 300, never less for one below */
        static const struct { uint64_t count, others, common, adding, asking; } counts[] = {
            {299, 1, 0, 0, 0}, {300, 1, 0, 0, 0}, {301, 1, 1, 0, 0}, {301, 299, 1, 0, 0}, {499, 1, 199, 0, 0}, {500, 1, 200, 18, 0},
            {300, 500, 200, 18, 0}, {299, 500, 200, 0, 0}, {301, 499, 200, 18, 0}, {400, 399, 199, 0, 0}, {400, 400, 200, 18, 0},
            {299, 1, 1, 16, 16}, {300, 1, 1, 16, 16}, {301, 1, 0, 16, 16}, {301, 1, 2, 16, 16}, {301, 299, 0, 16, 16}, {500, 1, 199, 16, 16},
            {500, 1, 201, 16, 16}, {501, 1, 201, 16, 16}, {501, 1, 200, 16, 16}, {401, 400, 201, 16, 16}, {400, 400, 100, 16, 16},
            {5000, 1, 4700, 16, 16}, {5001, 1, 4701, 16, 16},
        };
        for (int j = 0; j < (int)(sizeof counts / sizeof counts[0]); j++) {
            lent.areas = good, r->count = counts[j].count, lent.areas.runs[other].count = counts[j].others, lent.areas.common = counts[j].common;
            tried(counts[j].adding, counts[j].asking, area, "areas.runs.count, areas.common", j);
            if (counts[j].adding != 0) continue;
            before = lent, before.areas.runs[i] = haldurap_add(*r, record).run, before.areas.common += counts[j].count >= 300;
            same(haldurap_add_area(&lent.areas, HALDURAP_AREAS_NUMBERS, area, record), 0, "add_area", j), stays("areas with one more", j);
        }
        /* 18 comes after the record's own numbers */
        haldurap_record fast = record;
        fast.speeds.highway = 131;
        lent.areas = good, r->count = 500, lent.areas.common = 200;
        same(haldurap_add_area(&lent.areas, HALDURAP_AREAS_NUMBERS, area, fast), HALDURAP_SPEED, "add_area to a full area", i);
        same(haldurap_add_area(&lent.areas, HALDURAP_AREAS_NUMBERS, area, record), HALDURAP_FULL_AREA, "add_area to a full area", i);
    }
}

/* The days of a head, in each call that takes one and in a sheet. */
static void days(void) {
    static const struct { uint64_t first, last, number; } tried_days[] = {
        {20260515, 20261020, 0}, {20260515, 20260515, 0}, {0, 0, 0},
        {20261020, 20260515, HALDURAP_DAY_ORDER}, {20260515, 20270515, HALDURAP_DAY_ORDER},
        {20260515, 0, HALDURAP_NO_DAY}, {0, 20260515, HALDURAP_NO_DAY}, {HIGH + 20260515, 20261020, HALDURAP_NO_DAY},
        {20260515, HIGH + 20261020, HALDURAP_NO_DAY}, {UINT64_MAX, UINT64_MAX, HALDURAP_NO_DAY},
    };
    static const haldurap_run zero;
    for (int i = 0; i < (int)(sizeof tried_days / sizeof tried_days[0]); i++) {
        haldurap_head h = {120, {-50, -20, 10, 60, 110, 150, 180, 175, 130, 80, 30, -10}, tried_days[i].first, tried_days[i].last};
        haldurap_run_answer a = haldurap_open(h);
        same(a.number, tried_days[i].number, "days in open", i), same(memcmp(&a.run, &zero, sizeof zero) == 0, a.number != 0, "run of days", i);
        haldurap_list_answer l = haldurap_add_list(h, (const uint64_t *)&record, 0);
        same(l.number, a.number, "days in add_list", i), same(memcmp(&l.run, &a.run, sizeof a.run), 0, "list of days", i);
        same(haldurap_open_areas(&lent.areas, HALDURAP_AREAS_NUMBERS, h), a.number, "days in open_areas", i);
        for (int area = 0; area < 16; area++) same(memcmp(&lent.areas.runs[area], &a.run, sizeof a.run), 0, "areas of days", i);
        char line[200];
        int length = sprintf(line, "%5d%5d%5d%5d%5d%5d%5d%5d%5d%5d%5d%5d%5d", 120, -50, -20, 10, 60, 110, 150, 180, 175, 130, 80, 30, -10);
        same((uint64_t)length + 1, HALDURAP_HEAD_BYTES, "HALDURAP_HEAD_BYTES", i);
        if (h.first > 999999999 || h.last > 999999999) continue;
        length += sprintf(line + length, "%9d%9d\n", (int)h.first, (int)h.last);
        same((uint64_t)length, HALDURAP_DATED_HEAD_BYTES, "HALDURAP_DATED_HEAD_BYTES", i);
        /* a line of 15 numbers is dated, also by days 0 and 0 */
        haldurap_sheet_answer s = haldurap_sheet((const uint8_t *)line, (size_t)length);
        uint64_t number = h.first == 0 && h.last == 0 ? HALDURAP_NO_DAY : a.number;
        same(s.number, number, "days in sheet", i), same(s.line, number != 0, "line of days", i);
        same(memcmp(&s.run, number == 0 ? &a.run : &zero, sizeof zero), 0, "sheet of days", i);
    }
    for (int i = 0; i < 12; i++) {
        /* a day of each month has the X of its month's T, and of no other */
        haldurap_head h = head, alike = head;
        h.temps[i] = 50, h.first = h.last = 20260101 + 100 * (uint64_t)i;
        for (int j = 0; j < 12; j++) alike.temps[j] = 50;
        same(memcmp(haldurap_open(h).run.x, haldurap_open(alike).run.x, sizeof ((haldurap_run *)0)->x), 0, "X of one day", i);
    }
}

int main(void) {
    haldurap_run fresh = haldurap_open(head).run, run = haldurap_add(fresh, record).run;
    as_documented();
    sizes_written(run);
    inputs(fresh);
    runs(fresh);
    answers(run);
    texts();
    lists(run);
    orders(run);
    joins(fresh, run);
    areas(fresh);
    days();
    printf("C: %d sizes, offsets and values compared, %s\n", checked, failed ? "SOME DIFFER" : "all the same");
    return failed;
}
