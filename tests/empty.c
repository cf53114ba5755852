/* Calls with nothing lent: a null pointer with length 0 is refused, or passes, as 01 says. */
#include "bohrali.h"

#include <stdio.h>

/* Chart K of 01. */
static const uint8_t chart[46] = {
    1, 255, 0, 0,  0, 255, 0, 0,  1, 255, 0, 0,  0, 255, 0, 0,  1, 255, 0, 0,
    0, 1,  1, 2,  2, 3,  3, 1,  3, 4,
    1, 0,  5, 0,  5, 0,  0, 0,  46, 0,  26, 0,  16, 0,  0x4F, 0x43,
};

/* A write at node 1. */
static const uint8_t access_1[BOHRALI_BYTES_ACCESS] = {1, BOHRALI_ACCESS_WRITE, 0, 0};

#define REGION BOHRALI_REGION_OUTERMOST

static int failures;

static void expect(const char *call, int64_t got, int64_t wanted)
{
    if (got != wanted) {
        printf("%s: %lld and not %lld\n", call, (long long)got, (long long)wanted);
        failures++;
    }
}

int main(void)
{
    expect("admit nothing", bohrali_admit(NULL, 0), -BOHRALI_REFUSED_SHORT);
    expect("distances of nothing", bohrali_distances(NULL, 0, REGION, NULL, 0),
           -BOHRALI_REFUSED_SHORT);
    expect("an edge into nothing", bohrali_insert_edge(NULL, 0, 0, 0, 0, 0, 1),
           -BOHRALI_REFUSED_SHORT);
    expect("an edge beyond nothing", bohrali_insert_edge(NULL, 0, 1, 0, 0, 0, 1),
           -BOHRALI_REFUSED_LENGTHS);
    expect("no edge out of nothing", bohrali_remove_edge(NULL, 0, 0, 0, 1),
           -BOHRALI_REFUSED_SHORT);
    expect("no edge from beyond nothing", bohrali_remove_edge(NULL, 0, 1, 0, 1),
           -BOHRALI_REFUSED_LENGTHS);
    expect("judge nothing", bohrali_judge(NULL, 0, REGION, NULL, 0), -BOHRALI_REFUSED_SHORT);
    expect("judge nothing, sized", bohrali_judge_sized(NULL, 0, REGION, 2, NULL, 0),
           -BOHRALI_REFUSED_SHORT);
    expect("no room for the chart of an empty listing", bohrali_listing(NULL, 0, NULL, 0),
           -BOHRALI_REFUSED_ROOM);
    expect("locks of nothing", bohrali_locks(NULL, 0, REGION, NULL, 0), -BOHRALI_REFUSED_SHORT);
    expect("locks of nothing, sized", bohrali_locks_sized(NULL, 0, REGION, 2, NULL, 0),
           -BOHRALI_REFUSED_SHORT);
    expect("pair of nothing", bohrali_pair(NULL, 0, REGION, 0, 0), -BOHRALI_REFUSED_SHORT);
    expect("pair of nothing, sized", bohrali_pair_sized(NULL, 0, REGION, 2, 0, 0),
           -BOHRALI_REFUSED_SHORT);
    expect("phases of nothing", bohrali_phases(NULL, 0, REGION, NULL, 0), -BOHRALI_REFUSED_SHORT);
    expect("races of nothing", bohrali_races(NULL, 0, REGION, NULL, 0, NULL, 0),
           -BOHRALI_REFUSED_SHORT);
    expect("sheet of nothing", bohrali_sheet(NULL, 0, REGION, NULL, 0), -BOHRALI_REFUSED_SHORT);
    expect("sheet of nothing, sized", bohrali_sheet_sized(NULL, 0, REGION, 2, NULL, 0),
           -BOHRALI_REFUSED_SHORT);
    expect("no run over nothing", bohrali_witnessed(NULL, 0, REGION, 2, NULL, 0, 0, 0),
           -BOHRALI_REFUSED_SHORT);
    expect("no claims", bohrali_judge(chart, sizeof chart, REGION, NULL, 0), 0);
    expect("no claims, sized", bohrali_judge_sized(chart, sizeof chart, REGION, 1, NULL, 0), 0);
    expect("no constructs", bohrali_locks(chart, sizeof chart, REGION, NULL, 0), 0);
    expect("no constructs and no size",
           bohrali_locks_sized(chart, sizeof chart, REGION, 0, NULL, 0), -BOHRALI_REFUSED_SIZE);
    expect("no entries", bohrali_witnessed(chart, sizeof chart, REGION, 2, NULL, 0, 1, 3), 0);
    expect("no entries and no threads",
           bohrali_witnessed(chart, sizeof chart, REGION, 0, NULL, 0, 1, 3),
           -BOHRALI_REFUSED_TRACE);
    expect("no accesses", bohrali_races(chart, sizeof chart, REGION, NULL, 0, NULL, 0), 0);
    expect("no room for races",
           bohrali_races(chart, sizeof chart, REGION, access_1, sizeof access_1, NULL, 0),
           -BOHRALI_REFUSED_ROOM);
    expect("no claims and no size", bohrali_judge_sized(chart, sizeof chart, REGION, 0, NULL, 0),
           -BOHRALI_REFUSED_SIZE);
    expect("no room for distances", bohrali_distances(chart, sizeof chart, REGION, NULL, 0),
           -BOHRALI_REFUSED_ROOM);
    expect("no room for phases", bohrali_phases(chart, sizeof chart, REGION, NULL, 0),
           -BOHRALI_REFUSED_ROOM);
    expect("no room for a sheet", bohrali_sheet(chart, sizeof chart, REGION, NULL, 0),
           -BOHRALI_REFUSED_ROOM);
    expect("no room and no size", bohrali_sheet_sized(chart, sizeof chart, REGION, 0, NULL, 0),
           -BOHRALI_REFUSED_ROOM);
    expect("no region and no room", bohrali_sheet(chart, sizeof chart, 0, NULL, 0),
           -BOHRALI_REFUSED_REGION);
    return failures != 0;
}
