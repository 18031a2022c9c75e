/* haldurap.h: the proved COPERT II inventory core, for C and C++ (and for whatever can call C).

   Hot and cold-start exhaust of seven vehicle classes, CO2, SO2 and lead from fuel, and the
   balance against sold fuel. Build the archive with `tools/archive.sh` and link
   target/libhaldurap.a; it needs nothing but memcpy and memset.

   Platform: x86-64, Linux. The archive's calls follow the C calling convention of that platform
   (System V); an archive for another one does not exist, and this header stops there.

   How the calls work
   ------------------
   - Texts, lists, buffers and areas are lent by a pointer; everything else passes by value. A call
     changes nothing of the caller's but the buffer that is lent to it; haldurap_open_areas and
     haldurap_add_area change the lent areas, in place. A new run comes back in the answer.
   - Nothing is allocated, nothing static is written, so calls from many threads need no lock. Only
     what a call changes must not be used by another thread meanwhile: one haldurap_areas needs a
     lock where a thread opens it or adds to it, different ones need none.
   - A call uses less than 16 KB of stack, the arguments included. What is lent to it is the
     caller's, and is not counted.
   - Every answer begins with a number: 0 if the call did what was asked, else the ground of the
     refusal (the table below). haldurap_open_areas and haldurap_add_area answer with the number
     alone. Only haldurap_layout and haldurap_in_order have none: they refuse nothing. An answer
     that is dropped is warned about (HALDURAP_ANSWER).
   - In a refused answer (its number is not 0) every other value is 0, also the floats and every
     word of a run, with four exceptions:
       haldurap_add          the run is the one that was handed in, byte for byte;
       haldurap_join         the run is the first that was handed in, byte for byte;
       haldurap_sheet        line is the line that decided, from 1;
       haldurap_report_sheet sheet_number and sheet_line are told also with 14.
     A list with refused records and a text with the line REFUSED are no refused answers: number
     is 0, and haldurap_list_answer and haldurap_text_answer say where to look instead.
   - What is lent to a refused call stays as it was, every byte, with one exception:
       haldurap_open_areas   refused by its head (1, 2, 19, 20), makes every number of the areas 0.
   - No call has a precondition on its numbers: any 64-bit value may be handed in, and what is out
     of range is refused by number. What the caller owes is C's own: pointers that are not null
     (also where the length is 0), aligned memory of the stated length, a buffer and areas that
     overlap nothing else that is lent.
   - Where several grounds fit, the first in this order is given: 16, then 11, then ascending; in
     adding to an area 16, 17, 3 to 8, 18; in joining 16, 21, 22; of a head 1, 2, 19, 20; in a line of
     a sheet and in a list 10 comes first. A sheet is sent back by its first bad line.
   - A run is plain data, and so are areas. They may be copied, compared by memcmp, stored and
     handed in again. A run is tested for order (16) by every call that takes one, areas by every
     call that reads them; see haldurap_run and haldurap_areas for what that test sees and what it
     cannot see.
   - Later versions move the layout of a run, and of areas with it. Compare haldurap_layout() with
     HALDURAP_LAYOUT and sizeof(haldurap_run) before runs or areas are kept in files, or a header
     and an archive are mixed. Runs kept by layouts before 7 have no totals: read their sheets or lists again.

   Units: grams, vehicle kilometres and km/h are whole numbers; trip lengths are tenths of km,
   temperatures tenths of a degree Celsius, shares percent. A day is written year x 10,000 +
   month x 100 + day: 15 May 2026 is 20260515.
*/
#ifndef HALDURAP_H
#define HALDURAP_H

#if !defined(__x86_64__) || !defined(__linux__) || defined(__ILP32__)
#error "haldurap.h: the archive is for x86-64 Linux with 64-bit pointers"
#endif

#include <stddef.h>
#include <stdint.h>

#ifdef __cplusplus
extern "C" {
#endif

/* Before every call: the compiler warns where its answer is dropped. Nothing for compilers without such a mark. */
#if defined(__GNUC__)
#define HALDURAP_ANSWER __attribute__((warn_unused_result))
#else
#define HALDURAP_ANSWER
#endif

/* The layout that this header describes; haldurap_layout() tells that of the archive. */
#define HALDURAP_LAYOUT 7   /* total_grams and total_rests came to haldurap_run */

/* Limits. */
#define HALDURAP_MOST_RECORDS 5000      /* records in a run, a joined one too */
#define HALDURAP_MOST_TEXT 65536        /* bytes of text that haldurap_report_sheet reads */
#define HALDURAP_LINE_BYTES 97          /* one line of a report, LF included */
#define HALDURAP_REPORT_BYTES 1455      /* room enough for every report: 15 lines */
#define HALDURAP_REFUSED_BYTES 17       /* the line REFUSED, LF included */
#define HALDURAP_HEAD_BYTES 66          /* the first line of a sheet without dates, LF included */
#define HALDURAP_DATED_HEAD_BYTES 84    /* the first line of a sheet with dates, LF included */
#define HALDURAP_RECORD_BYTES 41        /* every other line of a sheet, LF included */
#define HALDURAP_RECORD_NUMBERS 9       /* numbers of a record in a list (haldurap_add_list) */
#define HALDURAP_AREAS 16               /* areas under one head */
#define HALDURAP_AREA_RECORDS 300       /* records that each area has for itself */
#define HALDURAP_COMMON_RECORDS 200     /* records more, for whichever areas come first */
#define HALDURAP_AREAS_NUMBERS 2737     /* 64-bit numbers of a haldurap_areas: its length in the calls */

/* The numbers of refusals. */
enum haldurap_number {
    HALDURAP_TAKEN = 0,             /* no ground fits */
    HALDURAP_TRIP_LENGTH = 1,       /* L out of range (10 to 200) */
    HALDURAP_TEMPERATURE = 2,       /* a T out of range (-300 to 400) */
    HALDURAP_CLASS = 3,             /* class not 1 to 7 */
    HALDURAP_VEHICLES = 4,          /* vehicles out of range (1 to 1,000,000) */
    HALDURAP_KILOMETRES = 5,        /* km per vehicle out of range (1 to 999,999) */
    HALDURAP_DISTANCE = 6,          /* vehicles x km over 1,000,000,000 */
    HALDURAP_SHARES = 7,            /* a share over 100, or their sum not 100 */
    HALDURAP_SPEED = 8,             /* a speed out of range (10 to 130), also where its share is 0 */
    HALDURAP_FULL = 9,              /* the run has 5,000 records */
    HALDURAP_LINE_SHAPE = 10,       /* a line of a sheet has a wrong shape, or a list is not of whole records */
    HALDURAP_FUEL_OR_QUANTITY = 11, /* fuel not 1 to 3, or quantity not 1 to 5 */
    HALDURAP_NO_FUEL_USED = 12,     /* the fuel used is 0 in a balance */
    HALDURAP_SOLD_FUEL = 13,        /* sold fuel over 999,999,999 t, or k not 500,000 to 1,500,000 */
    HALDURAP_SHORT_BUFFER = 14,     /* the buffer is shorter than what is to be written */
    HALDURAP_FUEL_CONTENT = 15,     /* R over 4,000, s over 10,000 or l over 1,000 */
    HALDURAP_RUN_ORDER = 16,        /* the run or the areas are not in order (see haldurap_run, haldurap_areas) */
    HALDURAP_NO_AREA = 17,          /* area above 15 */
    HALDURAP_FULL_AREA = 18,        /* the area has 300 records or more and the common 200 are used */
    HALDURAP_NO_DAY = 19,           /* no such day, or not from 1980 to 2100 */
    HALDURAP_DAY_ORDER = 20,        /* the last day before the first, or in another year */
    HALDURAP_HEADS_DIFFER = 21,     /* L or an X of the two runs differs */
    HALDURAP_FULL_TOGETHER = 22     /* more than 5,000 records together */
};

enum haldurap_fuel { HALDURAP_GASOLINE = 1, HALDURAP_DIESEL = 2, HALDURAP_LPG = 3 };

/* FC is the fuel used; the others are what leaves the exhaust. */
enum haldurap_quantity { HALDURAP_CO = 1, HALDURAP_NOX = 2, HALDURAP_VOC = 3, HALDURAP_PM = 4, HALDURAP_FC = 5 };

/* What a run is opened with. 120 bytes.
   first and last are both 0 for a head without dates, in which all months weigh alike. Anything else is dated: the
   first and the last day of the period that the records are of, both included, both in one year from 1980 to 2100
   (Gregorian). In the cold starts each month then weighs by its days in the period, so that a whole year by dates is
   not quite a head without dates. All twelve T are wanted, also of months without a day of the period. */
typedef struct haldurap_head {
    uint64_t trip;              /*   0  mean trip length L, tenths of km, 10 to 200 */
    int64_t temps[12];          /*   8  mean temperature T of each month, tenths of a degree Celsius, -300 to 400 */
    uint64_t first;             /* 104  the first day, year x 10,000 + month x 100 + day, or 0 */
    uint64_t last;              /* 112  the last day, written alike, or 0 */
} haldurap_head;

/* The percent of the distance on each road; their sum is 100. 24 bytes. */
typedef struct haldurap_shares {
    uint64_t urban;             /*   0 */
    uint64_t rural;             /*   8 */
    uint64_t highway;           /*  16 */
} haldurap_shares;

/* The speed on each road, whole km/h, 10 to 130, wanted also where the share is 0. 24 bytes. */
typedef struct haldurap_speeds {
    uint64_t urban;             /*   0 */
    uint64_t rural;             /*   8 */
    uint64_t highway;           /*  16 */
} haldurap_speeds;

/* A part of the fleet. 72 bytes.
   Classes: 1 gasoline van, conventional; 2 the same, 93/59; 3 the same, 96/69; 4 LPG, 91/441;
   5 two-stroke (gasoline); 6 diesel van, conventional; 7 the same, 93/59. */
typedef struct haldurap_record {
    uint64_t vehicle_class;     /*   0  1 to 7 */
    uint64_t vehicles;          /*   8  1 to 1,000,000 */
    uint64_t km;                /*  16  km per vehicle, 1 to 999,999; vehicles x km is at most 1,000,000,000 */
    haldurap_shares shares;     /*  24 */
    haldurap_speeds speeds;     /*  48 */
} haldurap_record;

/* A run: what has been added up under one head, or under heads that come to the same (haldurap_join). 1,368 bytes.
   Take it from haldurap_open, haldurap_add, haldurap_join, haldurap_add_list, haldurap_sheet and haldurap_area_run,
   and ask by the calls below.

   A run that is not in order gives 16 from every call that takes it, but for haldurap_in_order, which gives 0.
   It is in order if every value is in its range, and every total is that of its four kinds:
       trip        10 to 200
       x           each 0 to 4,900,000,000
       count       0 to 5,000
       km          each 0 to 10^9 x count
       grams       each sum, whole grams and rest together, 0 to 10^12 g x count
       rests       each 0 to 999,999,999
       total_grams each total, whole grams and rest together, exactly the sum of its four kinds with their rests
       total_rests each 0 to 999,999,999
   That is all that 16 sees. It cannot see a value that is wrong and keeps all this: a flipped bit of trip, x, count
   or km, a sum changed together with its total, two exchanged kinds of one fuel and quantity, an x of another head, a record counted twice. Such a run is
   taken, and the figures are those of the wrong values. haldurap_join compares the trip and x of its two runs (21),
   the calls that read areas those of all sixteen (16); nothing else is compared.
   A program that writes grams or rests by hand writes their total as well, else the run is refused with 16: the four
   grams, and one more for each 10^9 that the four rests reach together; the rest is what remains.
   A program that keeps runs in files adds a checksum of its own. */
typedef struct haldurap_run {
    uint64_t trip;              /*    0  L of the head */
    uint64_t x[16];             /*    8  cold-start values X, at (fuel - 1) x 5 + quantity - 1; the last, x[15], is
                                         that of CO of class 3 */
    uint64_t count;             /*  136  records added */
    uint64_t km[3];             /*  144  vehicle kilometres of each fuel, at fuel - 1 */
    uint64_t grams[60];         /*  168  whole grams, at (fuel - 1) x 20 + (quantity - 1) x 4 + kind;
                                         kind is 0 urban, 1 rural, 2 highway, 3 cold */
    uint64_t rests[60];         /*  648  the rest of each sum, billionths of a gram, at the same place */
    uint64_t total_grams[15];   /* 1128  whole grams of the exact total, what the four rests carry (0 to 3 g) included, at
                                         (fuel - 1) x 5 + quantity - 1 */
    uint64_t total_rests[15];   /* 1248  the rest of each total, billionths of a gram, at the same place */
} haldurap_run;

/* Sixteen areas under one head: the run of each, and how much of the common records they use. 21,896 bytes.
   They share 5,000 records: each area has 300 for itself, and 200 more are for whichever areas come first. An
   area below 300 can always add an acceptable record, whatever the others have used.
   Open them by haldurap_open_areas (any memory of this size will do, whatever is in it), add by haldurap_add_area,
   and ask by haldurap_area_run. The run that it gives is a copy: haldurap_add to it and haldurap_join do not change
   the areas.

   Areas that are not in order give 16 from haldurap_add_area and haldurap_area_run. They are in order if
       runs        each is in order (see haldurap_run), and all have the same trip and the same 16 x
       common      0 to 200, and it is the sum over the areas of what count has beyond 300
   What 16 cannot see in a run it cannot see here, nor that two areas' runs were exchanged. */
typedef struct haldurap_areas {
    haldurap_run runs[16];      /*     0  the run of each area, from area 0 */
    uint64_t common;            /* 21888  records beyond 300, summed over the areas */
} haldurap_areas;

/* A number and a run. 1,376 bytes. */
typedef struct haldurap_run_answer {
    uint64_t number;            /*   0 */
    haldurap_run run;           /*   8 */
} haldurap_run_answer;

/* A number and grams. 16 bytes. */
typedef struct haldurap_grams_answer {
    uint64_t number;            /*   0 */
    uint64_t grams;             /*   8  0 where refused */
} haldurap_grams_answer;

/* A number, the balance's factor, the digits worked to find it, and the balanced total. 32 bytes. */
typedef struct haldurap_balance_answer {
    uint64_t number;            /*   0 */
    uint64_t k;                 /*   8  sold over used fuel, millionths, 500,000 to 1,500,000; 0 where refused */
    uint64_t digits;            /*  16  the digits worked, 6 to 12; 0 where refused */
    uint64_t grams;             /*  24  the balanced total, grams; 0 where refused */
} haldurap_balance_answer;

/* A number and how many bytes were written. 16 bytes. */
typedef struct haldurap_length_answer {
    uint64_t number;            /*   0 */
    size_t bytes;               /*   8  0 where refused */
} haldurap_length_answer;

/* What became of a sheet and its text. 32 bytes.
   sheet_number alone tells whether the sheet was taken; sheet_line does not. */
typedef struct haldurap_text_answer {
    uint64_t number;            /*   0  0: the text is in the buffer; 14: the buffer is shorter than the text */
    size_t bytes;               /*   8  the text's length; 0 where refused */
    uint64_t sheet_number;      /*  16  the sheet's own number, also with 14: 0 if it was taken and the text is its
                                        report, else the text is the line REFUSED */
    size_t sheet_line;          /*  24  the line that decided, from 1, also with 14; 0 for a taken sheet */
} haldurap_text_answer;

/* What became of a list of records, and the run. 1,400 bytes.
   number is 0 also where records were refused: refused tells whether one was, taken how many were taken. */
typedef struct haldurap_list_answer {
    uint64_t number;            /*   0  0, or 10, 1, 2, 19, 20: the list or its head is refused */
    uint64_t taken;             /*   8  how many records were taken; 0 where number is not 0 */
    size_t place;               /*  16  the place of the first refused record, from 1; 0 where none was refused */
    uint64_t refused;           /*  24  its number, 3 to 9; 0 where none was refused */
    haldurap_run run;           /*  32  the run after all records; the run of zeros where number is not 0 */
} haldurap_list_answer;

/* A number and a row for the map: the printed kinds, each float exactly the whole grams. 40 bytes. */
typedef struct haldurap_map_row_answer {
    uint64_t number;            /*   0 */
    double urban;               /*   8  0.0 where refused, as are the next three */
    double rural;               /*  16 */
    double highway;             /*  24 */
    double cold;                /*  32 */
} haldurap_map_row_answer;

/* A number and one figure for the map. 24 bytes. */
typedef struct haldurap_figure_answer {
    uint64_t number;            /*   0 */
    uint64_t given;             /*   8  1 if grams is a figure; 0 for the mark "not given", and where refused */
    double grams;               /*  16  0.0 where given is 0 */
} haldurap_figure_answer;

/* A number, its line and the run of a sheet. 1,384 bytes. */
typedef struct haldurap_sheet_answer {
    uint64_t number;            /*   0 */
    size_t line;                /*   8  the line that decided, from 1; 0 for a taken sheet */
    haldurap_run run;           /*  16  the run of zeros where refused */
} haldurap_sheet_answer;

/* The version of the layout and the size of a run. 16 bytes. */
typedef struct haldurap_layout_answer {
    uint64_t version;           /*   0  HALDURAP_LAYOUT */
    uint64_t size;              /*   8  sizeof(haldurap_run) */
} haldurap_layout_answer;


/* The layout that the archive was built with. Never refuses. */
HALDURAP_ANSWER haldurap_layout_answer haldurap_layout(void);

/* Opens a run: trip and the X of the head, no records, all sums and totals 0.
   Refuses 1, 2, 19, 20, and gives the run of zeros then (which is not in order). */
HALDURAP_ANSWER haldurap_run_answer haldurap_open(haldurap_head head);

/* Adds a record. The answer's run has one record more, its kilometres, and its grams in the twenty
   sums and the five totals of its fuel, exact to the billionth of a gram.
   Refuses 16, then 3 to 9, and gives back the run as it came, byte for byte. So
       a = haldurap_add(run, record); run = a.run;
   is right whether the record was taken or not. */
HALDURAP_ANSWER haldurap_run_answer haldurap_add(haldurap_run run, haldurap_record record);

/* Joins two runs into one, as where two crews key in halves of one town: count, kilometres, the 60 sums and the 15
   totals of the answer's run are theirs added up, exact to the billionth of a gram; trip and x are those of both.
   Runs may be joined if L and all 16 X agree, as they do where both were opened with the same head, and if they
   have at most 5,000 records together. Nothing else of a head is compared: other heads may come to the same L and
   X, as where months of equal weight are exchanged. The distance of a printed total from the exact sum holds over
   both lists together, each record measured by the head that it was added under.
   Where no join is refused, neither order nor grouping matters: joining is commutative and associative, byte for
   byte, and a fresh run of the same head on either side changes nothing. The answer's run may be asked, added to
   and joined as any other; a later haldurap_add goes by the run's own L and X.
   The runs of areas (haldurap_area_run) may be joined too, with each other and with single runs. The answer's run
   is a single run that belongs to no area, whose limit is 5,000 (9, not 18), and the areas stay as they were. All
   sixteen of one haldurap_areas, joined one after the other, have at most 5,000 records: no such join is refused.
   A run does not tell which records are in it: one that is joined with itself, or two with the same records, count
   these twice, and no number is given.
   Refuses 16 (either run), then 21, 22, and gives back the first run, byte for byte. So
       a = haldurap_join(run, other); run = a.run;
   is right whether the other run was taken or not; a.number tells which. */
HALDURAP_ANSWER haldurap_run_answer haldurap_join(haldurap_run first, haldurap_run second);

/* Opens a run and adds records one after the other, as haldurap_open and haldurap_add would: the numbers
   are nine a record (HALDURAP_RECORD_NUMBERS), in the order of haldurap_record: class, vehicles, km, the
   urban, rural and highway share, the urban, rural and highway speed. So an array of n records is the list
   of 9 x n numbers at the same place. The numbers are only read.
   A refused record is passed over, the run stays as it was and the rest are added: the answer tells how
   many were taken, and the place (from 1) and the number (3 to 9) of the first that was not. A list of
   length 0 is a list without records.
   Refuses 10 (length is no multiple of 9), then 1, 2, 19, 20, and gives the run of zeros then. */
HALDURAP_ANSWER haldurap_list_answer haldurap_add_list(haldurap_head head, const uint64_t *numbers, size_t length);

/* 1 if the run is in order (see haldurap_run), else 0. Never refuses. */
HALDURAP_ANSWER uint64_t haldurap_in_order(haldurap_run run);

/* Opens areas in the lent memory: each of the sixteen runs is that of haldurap_open, common is 0. Here and in
   the two calls below, length is the count of 64-bit numbers lent at areas: HALDURAP_AREAS_NUMBERS.
   Refuses 16 (for another length alone; every number stays as it was), then 1, 2, 19, 20, and makes every number 0
   then (areas of zeros are not in order). */
HALDURAP_ANSWER uint64_t haldurap_open_areas(haldurap_areas *areas, size_t length, haldurap_head head);

/* Adds a record to an area, 0 to 15, in place: its run becomes what haldurap_add gives for it, and common rises
   by 1 if the area had 300 records or more. The other areas stay as they were.
   Refuses 16 (also for another length), then 17, 3 to 8, 18, and leaves every number as it was. 9 is for single
   runs, and is never given here. */
HALDURAP_ANSWER uint64_t haldurap_add_area(haldurap_areas *areas, size_t length, uint64_t area, haldurap_record record);

/* The run of an area, 0 to 15, of which every question below is asked. The numbers are only read.
   Refuses 16 (also for another length), then 17, and gives the run of zeros then. */
HALDURAP_ANSWER haldurap_run_answer haldurap_area_run(const haldurap_areas *areas, size_t length, uint64_t area);

/* The printed total of a fuel and a quantity, grams: the exact sum of the four kinds, half up.
   The printed kinds may miss it by up to 2 g. Refuses 16, 11. */
HALDURAP_ANSWER haldurap_grams_answer haldurap_total(haldurap_run run, uint64_t fuel, uint64_t quantity);

/* One printed kind of a fuel and a quantity, grams, half up: what was emitted hot on urban roads,
   on rural roads, on highways, and by cold starts. Refuse 16, 11. */
HALDURAP_ANSWER haldurap_grams_answer haldurap_urban(haldurap_run run, uint64_t fuel, uint64_t quantity);
HALDURAP_ANSWER haldurap_grams_answer haldurap_rural(haldurap_run run, uint64_t fuel, uint64_t quantity);
HALDURAP_ANSWER haldurap_grams_answer haldurap_highway(haldurap_run run, uint64_t fuel, uint64_t quantity);
HALDURAP_ANSWER haldurap_grams_answer haldurap_cold(haldurap_run run, uint64_t fuel, uint64_t quantity);

/* The balance against sold fuel, in tonnes (0 to 999,999,999). With F the printed total of FC of this
   fuel, k = sold x 10^12 / F, half up, and the balanced total of the quantity is its printed total
   x k / 1,000,000, half up.
   k is found as sold over F, then one digit at a time through the twelve noughts, ending where the
   remainder is 0. digits is how many were worked: the least n from 0 to 12 with sold x 10^n a multiple
   of F, or 12 if there is none. Fewer than 12 mean that k is exactly sold x 10^12 / F, without rounding;
   12 does not tell.
   Refuses 16, 11, 12 (F is 0), 13 (sold over the limit, or k out of range, as where sold is a multiple
   of F). */
HALDURAP_ANSWER haldurap_balance_answer haldurap_balance(haldurap_run run, uint64_t fuel, uint64_t quantity, uint64_t sold);

/* From the fuel used F (the printed total of FC of this fuel), grams, half up; an F of 0 gives 0.
   CO2 = 44,011,000 F / (12,011,000 + 1,008 R), R hydrogen per carbon in thousandths, 0 to 4,000
   (gasoline 1,800). SO2 = 2 F s / 1,000,000, s sulphur in ppm by mass, 0 to 10,000.
   Lead = 3 F l / 4,000,000, l lead in ppm by mass, 0 to 1,000.
   Refuse 16, 11 (the fuel), 15 (R, s or l). */
HALDURAP_ANSWER haldurap_grams_answer haldurap_co2(haldurap_run run, uint64_t fuel, uint64_t hydrogen);
HALDURAP_ANSWER haldurap_grams_answer haldurap_so2(haldurap_run run, uint64_t fuel, uint64_t sulphur);
HALDURAP_ANSWER haldurap_grams_answer haldurap_lead(haldurap_run run, uint64_t fuel, uint64_t lead);

/* The four printed kinds as floats, each exactly the whole grams (below 2^53). Refuses 16, 11. */
HALDURAP_ANSWER haldurap_map_row_answer haldurap_map_row(haldurap_run run, uint64_t fuel, uint64_t quantity);

/* One field of that row, or the mark "not given" (given 0) for PM of gasoline and LPG.
   Refuse 16, 11. */
HALDURAP_ANSWER haldurap_figure_answer haldurap_figure_urban(haldurap_run run, uint64_t fuel, uint64_t quantity);
HALDURAP_ANSWER haldurap_figure_answer haldurap_figure_rural(haldurap_run run, uint64_t fuel, uint64_t quantity);
HALDURAP_ANSWER haldurap_figure_answer haldurap_figure_highway(haldurap_run run, uint64_t fuel, uint64_t quantity);
HALDURAP_ANSWER haldurap_figure_answer haldurap_figure_cold(haldurap_run run, uint64_t fuel, uint64_t quantity);

/* Writes the report into the buffer: a line of 97 bytes for each fuel and quantity whose printed
   total is not 0, by fuel, then quantity: fuel (width 2), name (4), urban, rural, highway, cold,
   total (18 each), right-justified with spaces, LF. No 0 byte is written behind it.
   Gives the length in bytes (0 for a run without grams) and leaves the bytes behind it as they were.
   Refuses 16, 14, and leaves the whole buffer as it was. HALDURAP_REPORT_BYTES is always enough. */
HALDURAP_ANSWER haldurap_length_answer haldurap_report(haldurap_run run, uint8_t *buffer, size_t length);

/* Reads a sheet of any length: lines ended by LF, the first with 13 numbers of width 5 (L, then T) or with 15,
   behind these the first and the last day in width 9 each; the others with class (width 2), vehicles (7),
   km (7), three shares and three speeds (4 each). Numbers are right-justified with spaces, without leading
   zeros; a minus stands only before a T that is not 0. A head alone is a full sheet. A line of 15 numbers is
   dated whatever its days are: days 0 and 0 there are refused by 19.
   Gives number 0, line 0 and the run with all records. The first bad line decides: in line 1 number
   10, then 1, 2, 19, 20; in the others 10, then 3 to 9; bytes after the last LF are a line of wrong shape,
   and an empty text is 10 at line 1. A refused sheet gives the number, its line from 1, and the run of
   zeros. The text is only read. */
HALDURAP_ANSWER haldurap_sheet_answer haldurap_sheet(const uint8_t *text, size_t length);

/* Reads a sheet and writes its report into the buffer, or, for a refused sheet, the one line `REFUSED`,
   the number (width 3), its line (6), LF. A text of more than 65,536 bytes is refused as 10 at line 1.
   Gives 0 and the length in bytes in both cases, beside them the sheet's own number and line, and leaves
   the bytes behind the text as they were. sheet_number is 0 exactly where the text is a report, so nobody
   has to read the text to know a refusal.
   Refuses 14 where there is no room for the report or the line, tells the sheet's number and line all the
   same, and leaves the whole buffer as it was. HALDURAP_REPORT_BYTES is always enough. */
HALDURAP_ANSWER haldurap_text_answer haldurap_report_sheet(const uint8_t *text, size_t text_length,
                                                           uint8_t *buffer, size_t buffer_length);

#ifdef __cplusplus
}
#endif

#endif
