/* Bohrali: can two threads of one OpenMP team be at two nodes of a parallel region together, in a
 * run that finishes?
 *
 * A region, with the regions inside it, is handed over as a chart, in bytes. Every call takes lent
 * bytes, keeps none of them, allocates nothing, needs less than 64 KiB of stack and returns one
 * number. Any bytes may be handed over: what is not a chart is refused. The library is for x86-64
 * only.
 *
 * A pointer may be null only where its length is 0; otherwise it points to so many bytes. `chart`,
 * `claims`, `accesses`, `trace` and `text` are only read: they may overlap, and nobody may write
 * them during the call. `out` must overlap none of them, and nobody else may read or write it
 * during the call, nor `buffer`, in which a chart is changed. Calls share nothing, so any number of
 * threads may make them.
 *
 * Below stand, each under a heading: charts, listings, limits and sizes, kinds, answers, distances,
 * accesses and races, locks, traces, refusals; then the calls, in the order in which one needs
 * them.
 *
 * The first word of a constant says what it is: VERSION is the version, LEAST and MOST are limits,
 * BYTES sizes, TRAILER fields of the trailer, NODE and CONSTRUCT kinds, REGION numbers of regions,
 * ANSWER answers, DISTANCE distances, ACCESS what is done to a variable, RACE races, LOCK whether a
 * lock can be dropped, REFUSED refusals.
 */
#ifndef BOHRALI_H
#define BOHRALI_H

#include <stddef.h>
#include <stdint.h>

/* The version of this header and of the library that it belongs to. The first number goes up where
 * a call changes its arguments or its answers, and with it the name of the shared library. */
#define BOHRALI_VERSION_MAJOR 2
#define BOHRALI_VERSION_MINOR 0
#define BOHRALI_VERSION_PATCH 0

#ifdef __cplusplus
extern "C" {
#endif

/* ==== Charts ================================================================================== */

/* The chart: node records, edge records, construct records and the trailer, one after the other.
 * Fields of two bytes are unsigned and little-endian. Nodes and constructs are numbered from 0 in
 * the order of their records. There are two editions: in edition 2 a construct record has two bytes
 * more, its filter. With n nodes, e edges, and c constructs of w bytes, 4 in edition 1 and 6 in
 * edition 2:
 *
 *     at 0               n nodes, 4 bytes each
 *         0  kind            BOHRALI_NODE_..
 *         1  construct       of a plain node the innermost construct around it, or none; of a begin
 *                            or an end the construct that it opens or closes; of a barrier its
 *                            region, a parallel, or none for the outermost region
 *         2  tag             2 bytes of the caller's, which nothing reads
 *     at 4n              e edges, 2 bytes each
 *         0  from            a node
 *         1  to              a node
 *     at 4n + 2e         c constructs, w bytes each
 *         0  kind            BOHRALI_CONSTRUCT_..
 *         1  parent          the innermost construct around it, of a lower number, or none
 *         2  name            2 bytes: of a critical the number of its name, 0 if unnamed; of other
 *                            kinds 0
 *         4  filter          edition 2 alone, 2 bytes: of a master, there called masked, the number
 *                            of the thread that goes in, any from 0 to 65535; of other kinds 0
 *     at 4n + 2e + wc    the trailer, 16 bytes: 8 fields of 2 bytes
 *         0  edition         1 or 2: BOHRALI_TRAILER_EDITION or BOHRALI_TRAILER_EDITION_2
 *         2  nodes           n
 *         4  edges           e
 *         6  constructs      c
 *         8  to nodes        from the chart's end back to the first node: 4n + 2e + wc + 16
 *        10  to edges        from the chart's end back to the first edge: 2e + wc + 16
 *        12  to constructs   from the chart's end back to the first construct: wc + 16
 *        14  closing         BOHRALI_TRAILER_CLOSING, which is the bytes 4F 43 (hexadecimal)
 *
 * The length is 4n + 2e + wc + 16: in edition 1 4n + 2e + 4c + 16, in edition 2 4n + 2e + 6c + 16.
 * "None" is BOHRALI_CONSTRUCT_NONE. Both editions have all kinds.
 *
 * Masked. The threads of a team are numbered from 0. Into a masked construct goes the thread whose
 * number is its filter, and no other: any other goes straight from its begin to its end, and in a
 * team without that number all do. A master of edition 1 is one of filter 0.
 *
 * Nodes. Node 0 is Start and node n - 1 is Finish; both are barriers of the outermost region. Each
 * construct has exactly one begin and one end.
 *
 * Inside. A plain node lies in the construct that its record names, a begin or an end in the parent
 * of its construct, a barrier in its region. A node is inside the construct that it lies in, that
 * one's parent, and so on. So a construct's own begin and end are not inside it; for
 * BOHRALI_ANSWER_SECTION alone a section's begin and end count as inside it.
 *
 * Regions. The whole chart is the outermost region, BOHRALI_REGION_OUTERMOST. Each parallel
 * construct is a region inside it, or inside another one, with a team of its own; its number is the
 * construct's. Every call but bohrali_admit, bohrali_listing, bohrali_insert_edge and
 * bohrali_remove_edge is about one region and reads the chart for it:
 *     nodes       those inside the parallel, with its begin and its end, which are the region's
 *                 Start and Finish; all others are outside. Nothing is outside the outermost one.
 *     barriers    the barriers that name the region, and its Start and Finish. Barriers of deeper
 *                 regions, and the begins and ends of deeper parallels, are plain nodes.
 *     edges       those between its nodes, but for one from its end to its begin, which is outside.
 *     constructs  those inside it, no parallels, that are inside no deeper parallel. Deeper ones
 *                 count for nothing, their begins and ends are plain nodes; so a single in an inner
 *                 team keeps no two threads of an outer team apart. What is inside a deeper region
 *                 is still inside the constructs of this region around it.
 * What is said below of paths, starts, ends, answers and runs is said of the chart so read and of
 * the region's team. The barriers of a region are numbered from 0 by rising node number, its Start
 * and Finish among them: these need not be the first and the last. The thread numbers of masked
 * constructs are those of the region's own team.
 *
 * Edges. They rise strictly by (from, to): by `from`, and where that is equal by `to`. None leads
 * into Start or out of Finish. Each stays in one construct, or outside all: it leads from the
 * construct's begin, or from a plain node, a barrier or an end that lies there, to the construct's
 * end, or to a plain node, a barrier or a begin that lies there. None leads from a section's end to
 * a section's begin, its own or another's. Along edges every node other than Start is reached from
 * Start, and every node other than Finish reaches Finish; so a sections has an edge from its begin
 * to each section's begin, and one from each section's end to its end.
 *
 * Nesting. Above a construct are its parent, that one's parent, and so on, up to the nearest
 * parallel: inside each region nesting starts anew. Above a single, a do or a sections: nothing.
 * Above a master or masked: criticals only. Above an ordered: a do only, and that is its parent.
 * Above a section: a sections only, and that is its parent. Above a critical: any kind, but no
 * critical of the same name; unnamed ones have the same name. Above a parallel: any kind. Directly
 * in a sections lie only the begins and ends of its sections: a plain node, a critical or a
 * parallel lies in one of these.
 *
 * Edges are for a thread that enters. None is needed for threads that go straight from the begin of
 * a master or masked, a single, a do or a sections to its end, from a do's end to the next
 * iteration, or from the end of a sections to a section that is left to take; a path of edges from
 * a construct's end to its begin brings threads to the whole construct again. A barrier that OpenMP
 * implies, as after a single, a do or a sections without NOWAIT, is a barrier node like any other.
 */

/* ==== Listings ================================================================================ */

/* The listing: the shape of a region as text, for those who have no compiler to write a chart. It
 * is a row of items, one straight after the other, with no blank or line end between them:
 *
 *     s             a plain node
 *     b             a barrier
 *     l{..}         a loop: a plain node, its head; then its block, which leads back to the head.
 *                   What follows is reached from the head.
 *     i{..}{..}     a branch: a plain node, two blocks of which one is taken, and a plain node
 *                   where they join
 *     S{..} S{..}n  a single around a block. A barrier follows its end, unless n (NOWAIT) stands
 *                   after the brace.
 *     D{..} D{..}n  a do, in the same way
 *     M{..}         a master
 *     C{..}         a critical, unnamed
 *     O{..}         an ordered
 *
 * A block is a row of items too; it, and the whole listing, may be empty. At most
 * BOHRALI_MOST_DEPTH braces may be open at a time. Start and Finish go around the whole. Nodes and
 * constructs are numbered as their letters are met: a construct's end and a branch's second node at
 * the closing brace, the barrier that follows a construct next. Names and tags are 0. Each node
 * leads to the next one of its row, and the last node of a row to what follows the row; an edge
 * that would be there twice, as in i{}{}, is written once. */

/* ==== Limits and sizes ======================================================================== */

/* Limits of a chart. Barriers are counted in each region by itself, its Start and Finish included,
 * and so are never fewer than 2. */
#define BOHRALI_LEAST_NODES 2
#define BOHRALI_MOST_NODES 192
#define BOHRALI_LEAST_EDGES 1
#define BOHRALI_MOST_EDGES 1024
#define BOHRALI_MOST_CONSTRUCTS 48
#define BOHRALI_MOST_BARRIERS 64

/* The most braces that may be open in a listing. */
#define BOHRALI_MOST_DEPTH 16

/* Limits of a team's size, where one is named. */
#define BOHRALI_LEAST_SIZE 1
#define BOHRALI_MOST_SIZE 1024

/* The most threads of the team of a trace. */
#define BOHRALI_MOST_THREADS 8

/* The most records of a list of accesses, and the most bytes that bohrali_races writes. */
#define BOHRALI_MOST_ACCESSES 1024
#define BOHRALI_MOST_RACES 524800

/* The length of the longest chart, which is one of edition 2. */
#define BOHRALI_MOST_CHART_BYTES 3120

/* Sizes of the records, CONSTRUCT_2 that of a construct in edition 2, of an access, of an entry of
 * a trace, and of what bohrali_phases writes for each node. */
#define BOHRALI_BYTES_NODE 4
#define BOHRALI_BYTES_EDGE 2
#define BOHRALI_BYTES_CONSTRUCT 4
#define BOHRALI_BYTES_CONSTRUCT_2 6
#define BOHRALI_BYTES_TRAILER 16
#define BOHRALI_BYTES_ACCESS 4
#define BOHRALI_BYTES_ENTRY 2
#define BOHRALI_BYTES_PHASES 16

/* Fields of the trailer. */
#define BOHRALI_TRAILER_EDITION 1
#define BOHRALI_TRAILER_EDITION_2 2
#define BOHRALI_TRAILER_CLOSING 0x434F

/* ==== Kinds =================================================================================== */

/* Kinds of nodes. */
enum bohrali_node_kind {
    BOHRALI_NODE_PLAIN = 0,   /* any other code */
    BOHRALI_NODE_BARRIER = 1,
    BOHRALI_NODE_BEGIN = 2,   /* of a construct */
    BOHRALI_NODE_END = 3      /* of a construct */
};

/* Kinds of constructs. */
enum bohrali_construct_kind {
    BOHRALI_CONSTRUCT_SINGLE = 1,
    BOHRALI_CONSTRUCT_MASTER = 2,   /* in edition 2 masked, with a filter */
    BOHRALI_CONSTRUCT_CRITICAL = 3,
    BOHRALI_CONSTRUCT_DO = 4,
    BOHRALI_CONSTRUCT_ORDERED = 5,
    BOHRALI_CONSTRUCT_SECTIONS = 6, /* deals out its sections, each to one thread */
    BOHRALI_CONSTRUCT_SECTION = 7,  /* one of them */
    BOHRALI_CONSTRUCT_PARALLEL = 8  /* a region with a team of its own */
};

/* In place of a construct's number: none. */
#define BOHRALI_CONSTRUCT_NONE 255

/* In place of a parallel's number: the outermost region. */
#define BOHRALI_REGION_OUTERMOST 255

/* ==== Answers ================================================================================= */

/* Answers for two nodes of a region, which may be equal and are no barriers: can two threads of the
 * region's team be at them together, in a run that finishes? The team may have any size; the calls
 * that end in _sized are about teams of just the size that they name, as where the region carries
 * NUM_THREADS. A run finishes when all its threads are at the region's Finish in the end.
 *
 * A path is one or more edges in a row; it is barrier-free if no node strictly between its two ends
 * is a barrier. The starts of a node that is no barrier are the barriers from which a barrier-free
 * path leads to it, its ends those to which one leads from it. A construct returns if a
 * barrier-free path leads from its end to its begin. A never has the number of the first rule that
 * gives it, in the order 6, 7, 1 to 5; criticals give none. Rules 6 and 7 are for a size that is
 * named. A never for teams of any size is a never for each size; the other way round it is not: 0
 * says that two threads can be there in a team of some size, perhaps of a larger one only.
 *
 * Runs that do not finish. A run may hang, because its threads wait at different barriers. The
 * answers 2 to 7 hold in every run, finished or not: none has two threads at the two nodes
 * together. So does 1 where the starts of the two nodes, as bohrali_phases writes them, have no bit
 * in common. Where they have one, it is the ends that have none, and 1 is about runs that finish:
 * some other run has two threads there, unless one of the rules 2 to 5 excludes them too. In Figure
 * 2(b) of the paper that the rules come from, threads can part at a branch to nodes 7 and 8, and
 * then wait at two barriers for ever: the answer for 7 and 8 is 1. */
enum bohrali_answer {
    BOHRALI_ANSWER_CONCURRENT = 0,      /* they can */
    BOHRALI_ANSWER_NO_COMMON_PHASE = 1, /* never: no common start, or no common end */
    BOHRALI_ANSWER_MASTER = 2,          /* never: both inside masked constructs of the same filter;
                                           in edition 1: each is inside some master */
    BOHRALI_ANSWER_SINGLE = 3,          /* never: both inside one single, which does not return */
    BOHRALI_ANSWER_ORDERED = 4,         /* never: both inside ordereds of one do, which does not
                                           return */
    BOHRALI_ANSWER_SECTION = 5,         /* never: both inside one section, its begin and end counted
                                           as inside, whose sections does not return */
    BOHRALI_ANSWER_ONE_THREAD = 6,      /* never: the team has one thread */
    BOHRALI_ANSWER_MISSING_THREAD = 7   /* never: a node is inside a masked whose filter is at or
                                           over the size, so that the team lacks its thread */
};

/* In a sheet, in place of an answer: one of the two nodes is a barrier or outside the region, or
 * both are. */
#define BOHRALI_ANSWER_AT_BARRIER 255

/* Keeping answers while edges are added. Take two charts with the same nodes and constructs, tags
 * and edition aside, of which one has all the edges of the other and any others besides. Then every
 * never of the larger is a never of the smaller, in each region and for each size, though not
 * always by the same rule; and a list of claims that passes for the larger passes for the smaller.
 * So, of answers that were kept, each 0 stays 0 when edges are added; each never has to be asked
 * again, or is asked once of a chart with all the edges that may ever be added, and then holds
 * until they are. */

/* ==== Distances =============================================================================== */

/* In place of a node's distance: it is a barrier or outside the region. No distance is over 190. */
#define BOHRALI_DISTANCE_AT_BARRIER 255

/* ==== Accesses and races ====================================================================== */

/* An access to a variable, BOHRALI_BYTES_ACCESS bytes:
 *     0  node        where it is made, a node of the region that is no barrier
 *     1  kind        BOHRALI_ACCESS_..
 *     2  variable    2 bytes, little-endian: a number of the caller's
 */
enum bohrali_access {
    BOHRALI_ACCESS_READ = 0,
    BOHRALI_ACCESS_WRITE = 1
};

/* Races of two accesses, of which the first that applies is taken; they may be the same access,
 * made by two threads. The nodes never meet where bohrali_pair gives them another answer than 0,
 * which is for teams of any size and without locks.
 *
 * A node is inside criticals at any depth, but not inside one whose begin or end it is; unnamed
 * criticals have one name in common, 0. Where critical constructs do lock, so that a thread goes
 * into one only while no other is inside a critical of that name, two threads are never at the two
 * nodes of a synchronization race together, in a run that finishes: they come one after the other.
 * Only criticals that count for the region are looked at. */
enum bohrali_race {
    BOHRALI_RACE_NONE = 0,            /* the variables differ, both read, or the nodes never meet */
    BOHRALI_RACE_SYNCHRONIZATION = 1, /* both nodes are inside criticals of a common name */
    BOHRALI_RACE_DATA = 2             /* a possible data race: all else */
};

/* ==== Locks =================================================================================== */

/* Whether the lock of a critical can be dropped. What is asked is what runs without any locks do,
 * in which a thread goes into a critical whenever it comes to its begin: does one have two threads
 * together, one at a node inside this critical and the other at a node inside a critical of its
 * name, which may be this one? A critical's own begin and end are not inside it; unnamed criticals
 * have one name in common, 0.
 *
 * The locks of criticals with 1 or 2 can be dropped, all of them at once or any of them. Under the
 * locks that are left, where a thread goes into a critical that locks only while no other is inside
 * one of its name that locks, no run that finishes has two threads inside criticals of one name,
 * whether these lock or not; and where all that were dropped have 2, no run at all has, finished or
 * not.
 *
 * 0 says less than that the lock is needed: with other locks in place, as that of an outer critical
 * of another name, the two threads may be kept apart without it.
 *
 * Names are the program's, and a chart holds one region: criticals of this name in other code, as
 * in other regions, in routines or in tasks, count for nothing here. Nor do those of the chart that
 * are inside deeper regions or around this one. With regions inside regions there may be several
 * teams at once; the lock of a critical can then be dropped only if each pair of a node inside it
 * and a node inside a critical of its name, of whatever region, is a never in every region around
 * both nodes (bohrali_pair or bohrali_judge). Neither BOHRALI_LOCK_NO_CRITICAL nor
 * BOHRALI_ANSWER_AT_BARRIER is a never. When edges are added, each lock that was dropped has to be
 * asked for again; and what is said for a size holds for teams of just that size. */
enum bohrali_lock {
    BOHRALI_LOCK_NEEDED = 0,             /* some run that finishes has two threads so */
    BOHRALI_LOCK_DROPPABLE_FINISHED = 1, /* no run that finishes has, but some other run */
    BOHRALI_LOCK_DROPPABLE_ALWAYS = 2    /* no run has */
};

/* In place of these: the construct is no critical of the region, but one of another kind, outside
 * the region, or inside a deeper one. */
#define BOHRALI_LOCK_NO_CRITICAL 255

/* ==== Traces ================================================================================== */

/* A trace: a recorded run, BOHRALI_BYTES_ENTRY bytes an entry:
 *     0  thread      the number of a thread of the team, from 0
 *     1  node        the node that it steps to
 * All threads begin at the region's Start. When all stand at one barrier it opens: that is an entry
 * for each thread, in the order of their numbers, and takes effect with the last of these. Each
 * other entry is one step of one thread. The program replay_trace tells of any trace what becomes
 * of it, and which pairs of nodes it meets.
 *
 * How a trace is logged. One counter orders the entries of all threads. A thread draws its place
 * when it has come to a node: before it waits at a barrier, behind the wait of an ordered. Who
 * takes a single or a section is logged in one step with the claim, or draws its place before it
 * claims while who finds it taken draws one behind; otherwise real runs are forbidden. Thread 0 of
 * an inner team is still a thread of the outer one and belongs into both logs; an entry then needs
 * how deep it is, since a routine may be called at several depths. Tasks are no flow of the
 * region's threads.
 *
 * For makers of charts. A forbidden entry of a real run shows a chart that is too narrow. In the
 * reading of an outer region the constructs of deeper ones are plain nodes, and no step leads past
 * a deeper single, masked, do or sections or round a deeper do or sections again, though a real
 * thread of the outer team, which is thread 0 of the inner one, does so. The answers for the outer
 * region are the same; its runs are fewer. A chart for each region, in which deeper regions are
 * plain code with edges past and round, has these runs. A sections that can be cancelled is no
 * sections, since its end is left with sections untaken: a do is right for it. */

/* ==== Refusals ================================================================================ */

/* Refusals. A call returns the first that applies, negated, and then has written nothing. Each is
 * checked over the whole chart, or the whole list, before the next, in the order of their numbers
 * but for two: 23 comes straight after 10, and 20 straight after 23, so both before 11, 12, 13 and
 * 21. bohrali_insert_edge and bohrali_remove_edge check a length and two charts, and
 * bohrali_listing a text, in the order that is said there. */
enum bohrali_refusal {
    BOHRALI_REFUSED_SHORT = 1,     /* fewer than 16 bytes */
    BOHRALI_REFUSED_MARKS = 2,     /* edition neither 1 nor 2, or closing bytes differ */
    BOHRALI_REFUSED_COUNTS = 3,    /* node, edge or construct count outside its limits */
    BOHRALI_REFUSED_LENGTHS = 4,   /* length or a distance of the trailer differs from what the
                                      edition asks */
    BOHRALI_REFUSED_NODE = 5,      /* a node's kind or construct number; a barrier that names what
                                      is no parallel, or that names one as first or last node */
    BOHRALI_REFUSED_CONSTRUCT = 6, /* a construct's kind, parent or name, a filter on a kind that is
                                      not masked, the nesting, or a node or construct wrongly in a
                                      sections */
    BOHRALI_REFUSED_FRAME = 7,     /* not exactly one begin and one end for each construct */
    BOHRALI_REFUSED_BARRIER = 8,   /* first or last node no barrier, or over 64 barriers in one
                                      region */
    BOHRALI_REFUSED_EDGE = 9,      /* an edge names no node, is out of order or is not allowed */
    BOHRALI_REFUSED_PATHS = 10,    /* a node not reached from Start, or not reaching Finish */
    BOHRALI_REFUSED_ROOM = 11,     /* the buffer is shorter than the result */
    BOHRALI_REFUSED_CLAIMS = 12,   /* an odd number of bytes */
    BOHRALI_REFUSED_NUMBERS = 13,  /* a node number that no node has, or that of a barrier of the
                                      region or of a node outside it */
    BOHRALI_REFUSED_GRAMMAR = 14,  /* in a listing, a byte missing or with no place in the
                                      grammar */
    BOHRALI_REFUSED_DEPTH = 15,    /* in a listing, over 16 open braces */
    BOHRALI_REFUSED_LIMITS = 16,   /* of a listing, node, edge or construct count over its limit */
    BOHRALI_REFUSED_RECEIPT = 17,  /* a receipt's length or place that asking would not give now */
    BOHRALI_REFUSED_SPACE = 18,    /* fewer than two bytes past the chart */
    BOHRALI_REFUSED_NO_EDGE = 19,  /* the chart has no such edge */
    BOHRALI_REFUSED_ACCESSES = 20, /* a list not of whole records, or of over 1024 of them, a kind
                                      of access over 1, or a node number that 13 would refuse */
    BOHRALI_REFUSED_SIZE = 21,     /* a team size below 1 or over 1024 */
    BOHRALI_REFUSED_TRACE = 22,    /* a trace of an odd number of bytes, or for a team of no thread
                                      or of over 8 */
    BOHRALI_REFUSED_REGION = 23    /* a number that is not BOHRALI_REGION_OUTERMOST and names no
                                      parallel */
};

/* ==== Calls: a chart ========================================================================== */

/* Whether the bytes are a chart. Returns nodes + 256 * barriers + 65536 * phases, barriers and
 * phases those of the outermost region, or a refusal 1 to 10, negated. A phase is a pair (start,
 * end) that some node has; equal pairs count once. */
int64_t bohrali_admit(const uint8_t *chart, size_t chart_len);

/* Writes the chart of a listing, of edition 1. It is admitted: every other call takes it. Returns
 * its length, or the first of these refusals that applies, negated: 14 or 15, of these two the one
 * that is met first from the left, over the whole text; 16; 5 for a barrier inside a construct, one
 * that follows a single or a do among them; 6 where the nesting is broken; 8 for over 64 barriers,
 * Start and Finish counted; 11. Bytes past the chart keep their values. Any text may be handed
 * over; BOHRALI_MOST_CHART_BYTES are room enough for the chart of any. */
int64_t bohrali_listing(const uint8_t *text, size_t text_len, uint8_t *out, size_t out_len);

/* ==== Calls: answers ========================================================================== */

/* Judges a list of claims about a region, each a pair of bytes: two node numbers, of which it is
 * claimed that two threads of the region's team are never there together, in a run that finishes.
 * Returns 0 where the list passes: no team, of any size, has a run that finishes and brings two
 * threads to the two nodes of a pair together. Otherwise the index, from 0, of the first pair for
 * which some team has such a run, plus 1; or a refusal 1 to 10, 23, 12 or 13, negated. An empty
 * list passes where chart and region are not refused. */
int64_t bohrali_judge(const uint8_t *chart, size_t chart_len, size_t region, const uint8_t *claims,
                      size_t claims_len);

/* The same for teams of just `size` threads: the list passes where no team of that size has such a
 * run, and fails at the first pair for which one has. Refusals are 1 to 10, 23, 12, 13 and 21; an
 * empty list passes where chart, region and size are not refused. */
int64_t bohrali_judge_sized(const uint8_t *chart, size_t chart_len, size_t region, size_t size,
                            const uint8_t *claims, size_t claims_len);

/* The answer for nodes a and b of a region: 0 to 5, or a refusal 1 to 10, 23 or 13, negated. Any
 * numbers may be handed over; the order of the two nodes does not matter. */
int64_t bohrali_pair(const uint8_t *chart, size_t chart_len, size_t region, size_t a, size_t b);

/* The same for teams of just `size` threads: 0 to 7, or a refusal 1 to 10, 23, 13 or 21,
 * negated. */
int64_t bohrali_pair_sized(const uint8_t *chart, size_t chart_len, size_t region, size_t size,
                           size_t a, size_t b);

/* Writes for each node a, by rising number, a row with a byte for each node b: the answer for a and
 * b in a region, or BOHRALI_ANSWER_AT_BARRIER, also where a or b is outside the region. Byte
 * a * nodes + b is that of a and b. Returns the number of bytes written, nodes * nodes, with the
 * nodes of the whole chart, or a refusal 1 to 10, 23 or 11, negated. Bytes past the result keep
 * their values. */
int64_t bohrali_sheet(const uint8_t *chart, size_t chart_len, size_t region, uint8_t *out,
                      size_t out_len);

/* The same for teams of just `size` threads, with the answers of bohrali_pair_sized and
 * BOHRALI_ANSWER_AT_BARRIER where bohrali_sheet has it. Refusals are 1 to 10, 23, 11 and 21. */
int64_t bohrali_sheet_sized(const uint8_t *chart, size_t chart_len, size_t region, size_t size,
                            uint8_t *out, size_t out_len);

/* ==== Calls: locks and races ================================================================== */

/* Writes for each construct of the chart, by rising number, one byte: whether its lock can be
 * dropped in a region, BOHRALI_LOCK_.., for teams of any size. Returns the number of bytes written,
 * one for each construct of the whole chart, also for those that are not the region's and for other
 * kinds, or a refusal 1 to 10, 23 or 11, negated. BOHRALI_MOST_CONSTRUCTS are room enough for any
 * chart. Bytes past the result keep their values. */
int64_t bohrali_locks(const uint8_t *chart, size_t chart_len, size_t region, uint8_t *out,
                      size_t out_len);

/* The same for teams of just `size` threads. Refusals are 1 to 10, 23, 11 and 21. */
int64_t bohrali_locks_sized(const uint8_t *chart, size_t chart_len, size_t region, size_t size,
                            uint8_t *out, size_t out_len);

/* Writes the races of all pairs of a list of accesses to variables in a region: for each access, in
 * the order of the list, a byte (BOHRALI_RACE_..) for it and each access from itself on. So the
 * first byte is that of the first access with itself, made by two threads, and for n accesses there
 * are n * (n + 1) / 2 bytes. Returns the number of bytes written, 0 for an empty list, or a refusal
 * 1 to 10, 23, 20 or 11, negated. Bytes past the result keep their values. */
int64_t bohrali_races(const uint8_t *chart, size_t chart_len, size_t region,
                      const uint8_t *accesses, size_t accesses_len, uint8_t *out, size_t out_len);

/* ==== Calls: what the answers are read off ==================================================== */

/* Writes for each node, by rising number, its starts and its ends in a region: two masks of 8 bytes
 * each, little-endian, with bit b for barrier b of the region. Barriers, and nodes outside the
 * region, have no starts and no ends: 16 bytes of 0. Returns the number of bytes written, 16 for
 * each node of the whole chart, or a refusal 1 to 10, 23 or 11, negated. Bytes past the result keep
 * their values. */
int64_t bohrali_phases(const uint8_t *chart, size_t chart_len, size_t region, uint8_t *out,
                       size_t out_len);

/* Writes for each node, by rising number, one byte: its distance in a region, the fewest edges on a
 * barrier-free path that leads to it from a start of it, or BOHRALI_DISTANCE_AT_BARRIER where it is
 * a barrier or outside the region. Every barrier-free path from a barrier to the node has at least
 * so many edges. Returns the number of bytes written, one for each node of the whole chart, or a
 * refusal 1 to 10, 23 or 11, negated. Bytes past the result keep their values. */
int64_t bohrali_distances(const uint8_t *chart, size_t chart_len, size_t region, uint8_t *out,
                          size_t out_len);

/* ==== Calls: runs ============================================================================= */

/* Whether a trace shows that two threads can be at nodes a and b of a region together, in a run
 * that finishes. Returns 1 where it is such a run of a team of `size` threads, 1 to
 * BOHRALI_MOST_THREADS: every entry is a step of the region's team, all threads are at the region's
 * Finish in the end, and before the first entry or after some entry two different threads stand at
 * a and b. Returns 0 where it is not, or a refusal 1 to 10, 23, 13 or 22, negated. 1 shows that the
 * answer for a and b is 0, for teams of any size and of this one; 0 shows nothing, since another
 * trace may. Any numbers may be handed over; the order of the two nodes does not matter. */
int64_t bohrali_witnessed(const uint8_t *chart, size_t chart_len, size_t region, size_t size,
                          const uint8_t *trace, size_t trace_len, size_t a, size_t b);

/* ==== Calls: a chart changed ================================================================== */

/* Puts the edge (from, to) into the chart that the first chart_len bytes of a buffer are, where the
 * chart with that edge is admitted too. That chart has the edge's record in its place among the
 * edges, which rise by (from, to), and a trailer that counts it; so it is two bytes longer.
 *
 * An edge is tried before it is put in. Asking writes nothing and gives a refusal or a receipt, two
 * numbers: chart_len, and the place of the new record among the edges, from 0, which is the number
 * of present edges below (from, to). The program try_edge asks; C has no call for it. This call
 * asks again, and puts the edge in only if the receipt is the one that asking gives now. A receipt
 * holds no edge: that of another edge with the same place serves as well.
 *
 * Returns the longer chart's length, chart_len + 2, or the first of these refusals that applies,
 * negated: 4 if chart_len is beyond buffer_len, whatever the bytes are; 1 to 10 of the present
 * chart; 1 to 10 of the chart with the edge; 17; 18. Of the chart with the edge that is 3 where
 * there are 1024 already, else 9 for an edge that is there already or is not allowed. Any numbers
 * may be handed over: one that no node has, also one over 255, is no edge's, so 9 in that place.
 * Bytes past the longer chart keep their values. */
int64_t bohrali_insert_edge(uint8_t *buffer, size_t buffer_len, size_t chart_len,
                            size_t receipt_length, size_t receipt_place, size_t from, size_t to);

/* Takes the edge (from, to) out of the chart that the first chart_len bytes of a buffer are, where
 * the chart without that edge is admitted too: closes the gap, rewrites the trailer, and sets the
 * two bytes that are freed, at chart_len - 2 and chart_len - 1, to 0. Bytes from chart_len on keep
 * their values. It takes out what bohrali_insert_edge has put in: every byte of the chart is then
 * what it was before.
 *
 * Returns the shorter chart's length, chart_len - 2, or the first of these refusals that applies,
 * negated: 4 if chart_len is beyond buffer_len, whatever the bytes are; 1 to 10 of the present
 * chart; 19; 1 to 10 of the chart without the edge, so 3 for its only edge and 10 for one without
 * which some node is not reached from Start, or does not reach Finish. Any numbers may be handed
 * over: one that no node has, also one over 255, is no edge's, so 19. */
int64_t bohrali_remove_edge(uint8_t *buffer, size_t buffer_len, size_t chart_len, size_t from,
                            size_t to);

#ifdef __cplusplus
}
#endif

#endif
