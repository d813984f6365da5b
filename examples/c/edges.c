/* Bad input: many calls with random numbers, lengths and bytes, right ones among them. All that is lent stands right
 * beside pages that cannot be touched, so that a byte read or written outside of it ends the program. After each call
 * all that it may not write must be as it was: after a refusal, everything. How often each call answered each code is
 * printed, code:times, and then what calls answer to an f that is given or recorded, f:code; the contracts leave no
 * choice in it. */
#define _DEFAULT_SOURCE
#include "snapshot.h"
#include <stdio.h>
#include <stdlib.h>
#include <string.h>
#include <sys/mman.h>

#define TRIALS 200000
#define NODES 3 /* of the cluster */
#define GUARD 4096
#define ROOM ((SNAPSHOT_CLUSTER(NODES) / GUARD + 1) * GUARD)

/* Memory to lend, between two pages that cannot be touched. */
struct region {
    uint8_t *pages, *at;
    size_t length;        /* 0 where it is not lent to this call */
    uint8_t before[ROOM]; /* what it held before the call */
};

static struct region record, out, length, view, bytes, report, route, numbers, figures, cluster;
static struct region *const regions[] = {&record, &out,   &length,  &view,    &bytes,
                                         &report, &route, &numbers, &figures, &cluster};

#define REGIONS (sizeof regions / sizeof *regions)

/* What the calls have made so far: the record of a node of n, its messages, oldest first, and a cluster. */
static size_t n = 1;
static uint8_t node[SNAPSHOT_RECORD], link[SNAPSHOT_FRAME_OUTPUT], house[SNAPSHOT_CLUSTER(NODES)];
static size_t waiting; /* bytes on the link */
static size_t front;   /* the length of its first message */

enum { NODE_FRESH, NODE_UPDATE, NODE_SCAN, NODE_MESSAGE, NODE_FRAME, NEXT, READ, WRITE, FIGURES, PAGE };
enum { FRESH = PAGE + 1, UPDATE, SCAN, DELIVER, STOP };

static const char *const names[] = {"node fresh", "node update", "node scan", "node message", "node frame", "next",
                                    "read", "write", "figures", "page", "fresh", "update", "scan", "deliver", "stop"};

#define CALLS (sizeof names / sizeof *names)

static unsigned answers[CALLS][UINT8_MAX + 1];

static void fail(const char *what)
{
    fprintf(stderr, "%s\n", what);
    exit(1);
}

/* A number below the bound, by a generator of Lehmer's. */
static size_t below(size_t bound)
{
    static uint32_t state = 2026;
    state = (uint32_t)((uint64_t)state * 48271 % 2147483647);
    return state % bound;
}

/* A number that is mostly the right one. */
static size_t about(size_t right)
{
    const size_t others[] = {0, right - 1, right + 1, SIZE_MAX / 2, SIZE_MAX / 2 + 1, SIZE_MAX};
    size_t k = below(200);
    return k < sizeof others / sizeof *others ? others[k] : right;
}

/* A length that is mostly the right one, which is at least 1. */
static size_t about_length(size_t right)
{
    size_t k = about(right);
    return k > right + 1 ? below(right) : k;
}

static void open_regions(void)
{
    for (size_t i = 0; i < REGIONS; i++) {
        uint8_t *low = mmap(NULL, ROOM + 2 * GUARD, PROT_NONE, MAP_PRIVATE | MAP_ANONYMOUS, -1, 0);
        if (low == MAP_FAILED || mprotect(low + GUARD, ROOM, PROT_READ | PROT_WRITE) != 0)
            fail("no memory");
        regions[i]->pages = low + GUARD;
    }
}

/* Lends so many bytes: those given, then zeros. They stand at one end of the pages. */
static void *lend_exactly(struct region *r, size_t count, const void *given, size_t given_count)
{
    r->at = r->pages + (below(2) == 0 ? 0 : ROOM - count);
    r->length = count;
    memset(r->at, 0, count);
    memcpy(r->at, given, given_count < count ? given_count : count);
    memcpy(r->before, r->at, count);
    return r->at;
}

/* The same, seldom with a bit changed. */
static void *lend(struct region *r, size_t count, const void *given, size_t given_count)
{
    lend_exactly(r, count, given, given_count);
    if (count > 0 && below(100) == 0) {
        size_t at = below(count), bit = below(8);
        r->at[at] ^= (uint8_t)(1u << bit);
        r->before[at] = r->at[at];
    }
    return r->at;
}

/* Lends random bytes. */
static void *lend_any(struct region *r, size_t count)
{
    uint8_t any[SNAPSHOT_FRAME_OUTPUT + 1];
    for (size_t i = 0; i < count; i++)
        any[i] = (uint8_t)below(UINT8_MAX + 1);
    return lend(r, count, any, count);
}

/* The region is as it was from this byte on. */
static void kept(const struct region *r, size_t from)
{
    if (from > r->length || memcmp(r->at + from, r->before + from, r->length - from) != 0)
        fail("what a call may not write has changed");
}

/* Counts an answer. After a refusal all is as it was. */
static bool accepted(size_t call, uint8_t code)
{
    answers[call][code]++;
    for (size_t i = 0; snapshot_is_refusal(code) && i < REGIONS; i++) {
        if (regions[i]->length > 0)
            kept(regions[i], 0);
    }
    return !snapshot_is_refusal(code);
}

/* Puts the messages that a call has left in `out` on the link. Past them `out` is as it was. */
static void send_output(void)
{
    size_t count = 0;
    memcpy(&count, length.at, sizeof count);
    kept(&out, count);
    if (waiting + count > sizeof link)
        waiting = 0;
    memcpy(link + waiting, out.at, count);
    waiting += count;
}

static void call_node_fresh(void)
{
    size_t nodes = about(1 + below(2)), f = about(0), own = about(1), size = about_length(SNAPSHOT_RECORD);
    if (accepted(NODE_FRESH, snapshot_node_fresh(nodes, f, own, lend_any(&record, size), size))) {
        memcpy(node, record.at, sizeof node);
        n = nodes;
        waiting = 0;
    }
}

static void call_node_begin(bool scan)
{
    size_t size = about_length(SNAPSHOT_RECORD), room = about_length(SNAPSHOT_OUTPUT);
    uint8_t *r = lend(&record, size, node, sizeof node), *o = lend_any(&out, room);
    uint8_t *posted = lend_any(&report, SNAPSHOT_REPORT);
    size_t *count = lend_any(&length, sizeof *count);
    uint8_t code = scan ? snapshot_node_begin_scan(r, size, o, room, count)
                        : snapshot_node_begin_update(r, size, posted, o, room, count);
    if (accepted(scan ? NODE_SCAN : NODE_UPDATE, code)) {
        memcpy(node, record.at, sizeof node);
        kept(&report, 0);
        send_output();
    }
}

/* Takes so many bytes off the link. */
static void take(size_t count)
{
    waiting = waiting < count ? 0 : waiting - count;
    memmove(link, link + count, waiting);
}

/* Looks at what a call has left that hands messages over. */
static void look_at_message(size_t call, uint8_t code)
{
    if (accepted(call, code)) {
        memcpy(node, record.at, sizeof node);
        kept(&bytes, 0);
        if (!snapshot_is_scan(code))
            kept(&view, 0);
        send_output();
    }
}

static void call_node_message(void)
{
    size_t size = about_length(SNAPSHOT_RECORD), room = about_length(SNAPSHOT_OUTPUT), given = about_length(front);
    size_t sender = about(1 + below(n));
    uint8_t *r = lend(&record, size, node, sizeof node), *message = lend(&bytes, given, link, front);
    uint8_t *o = lend_any(&out, room), *shown = lend_any(&view, SNAPSHOT_VIEW);
    size_t *count = lend_any(&length, sizeof *count);
    take(front);
    look_at_message(NODE_MESSAGE, snapshot_node_message(r, size, sender, message, given, o, room, count, shown));
}

/* Packs the first messages of the link, or the first one over and over, to a full frame or one that is too long. */
static size_t pack(uint8_t frame[SNAPSHOT_FRAME + SNAPSHOT_LONGEST])
{
    size_t packed = 0, count = front;
    bool over = below(10) == 0;
    uint8_t to = 0;
    do {
        memcpy(frame + packed, over ? link : link + packed, count);
        packed += count;
    } while (packed < SNAPSHOT_FRAME &&
             (over || (packed < waiting && below(16) > 0 &&
                       snapshot_next(n, link + packed, waiting - packed, &count, &to) == SNAPSHOT_TAKEN)));
    take(over ? front : packed);
    return packed;
}

static void call_node_frame(void)
{
    uint8_t frame[SNAPSHOT_FRAME + SNAPSHOT_LONGEST];
    size_t packed = pack(frame), given = about_length(packed), sender = about(1 + below(n));
    size_t size = about_length(SNAPSHOT_RECORD), room = about_length(SNAPSHOT_FRAME_OUTPUT);
    uint8_t *r = lend(&record, size, node, sizeof node), *messages = lend(&bytes, given, frame, packed);
    uint8_t *o = lend_any(&out, room), *shown = lend_any(&view, SNAPSHOT_VIEW);
    size_t *count = lend_any(&length, sizeof *count);
    look_at_message(NODE_FRAME, snapshot_node_frame(r, size, sender, messages, given, o, room, count, shown));
}

static void call_next(void)
{
    size_t given = about_length(1 + below(2 * front)), nodes = about(n);
    uint8_t *message = lend(&bytes, given, link, waiting), *way = lend_any(&route, 1);
    size_t *count = lend_any(&length, sizeof *count);
    if (accepted(NEXT, snapshot_next(nodes, message, given, count, way)))
        kept(&bytes, 0);
}

static void call_read(void)
{
    size_t given = about_length(front), nodes = about(n);
    uint8_t *message = lend(&bytes, given, link, front), *carried = lend_any(&report, SNAPSHOT_REPORT);
    uint64_t *told = lend_any(&numbers, 4 * sizeof *told);
    if (accepted(READ, snapshot_read(nodes, message, given, told, carried)))
        kept(&bytes, 0);
}

static void call_write(void)
{
    uint64_t some[4];
    const size_t highest[4] = {7, 9, n, 3};
    for (size_t i = 0; i < 4; i++)
        some[i] = about(1 + below(highest[i]));
    size_t given = about_length(SNAPSHOT_ENTRY * n), room = about_length(SNAPSHOT_LONGEST), nodes = about(n);
    uint64_t *told = lend(&numbers, sizeof some, some, sizeof some);
    uint8_t *carried = lend_any(&report, SNAPSHOT_REPORT), *shown = lend(&bytes, given, "", 0);
    uint8_t *o = lend_any(&out, room);
    size_t *count = lend_any(&length, sizeof *count);
    if (accepted(WRITE, snapshot_write(nodes, told, carried, shown, given, o, room, count))) {
        kept(&numbers, 0);
        kept(&report, 0);
        kept(&bytes, 0);
        send_output();
    }
}

/* The number of nodes that a view is of, one too many among them. */
static size_t any_nodes(void) { return 1 + below(SNAPSHOT_NODES + 1); }

/* Lends the view of so many nodes, some of which have reported, and tells its length. */
static uint8_t *lend_view(size_t nodes, size_t *given)
{
    const uint8_t entry[SNAPSHOT_ENTRY] = {0, 0, 0, 0, 0, 0, 0, 1, 255, 255, 0, 2, 0, 3, 0, 4};
    uint8_t entries[SNAPSHOT_VIEW + SNAPSHOT_ENTRY] = {0};
    for (size_t at = 0; at < sizeof entries; at += sizeof entry)
        memcpy(entries + at, entry, below(2) == 0 ? sizeof entry : 0);
    *given = about_length(SNAPSHOT_ENTRY * nodes);
    return lend(&bytes, *given, entries, sizeof entries);
}

static void call_figures(void)
{
    size_t right = any_nodes(), nodes = about(right), given = 0;
    uint8_t *shown = lend_view(right, &given);
    uint32_t *four = lend_any(&figures, 4 * sizeof *four);
    if (accepted(FIGURES, snapshot_figures(nodes, shown, given, four)))
        kept(&bytes, 0);
}

/* A page with just its bytes lent, or a line more. */
static void call_page(void)
{
    size_t right = any_nodes(), nodes = about(right), room = about_length(SNAPSHOT_PAGE(right + below(2))), given = 0;
    uint8_t *shown = lend_view(right, &given), *o = lend_any(&out, room);
    size_t *count = lend_any(&length, sizeof *count);
    if (accepted(PAGE, snapshot_page(nodes, shown, given, o, room, count))) {
        kept(&bytes, 0);
        kept(&out, *count);
        if (*count != SNAPSHOT_PAGE(nodes))
            fail("a page has another length");
    }
}

/* An event of the cluster, seldom a cut. */
static void call_cluster(size_t call)
{
    size_t size = about_length(sizeof house), a = about(1 + below(NODES)), c = about(1 + below(NODES)), m = below(9);
    size_t nodes = about(NODES), f = about(below(2));
    bool cut = below(200) == 0;
    uint8_t *b = lend(&cluster, size, house, sizeof house), *posted = lend_any(&report, SNAPSHOT_REPORT);
    uint8_t *shown = lend_any(&view, SNAPSHOT_VIEW);
    uint8_t code = call == FRESH     ? snapshot_fresh(nodes, f, b, size)
                   : call == UPDATE  ? snapshot_begin_update(b, size, c, posted, cut, m)
                   : call == SCAN    ? snapshot_begin_scan(b, size, c, cut, m)
                   : call == DELIVER ? snapshot_deliver(b, size, a, c, cut, m, shown)
                                     : snapshot_stop(b, size, c);
    if (accepted(call, code)) {
        memcpy(house, cluster.at, sizeof house);
        kept(&report, 0);
        if (!snapshot_is_scan(code))
            kept(&view, 0);
    }
}

static void call_some(void)
{
    size_t some = below(1000);
    if (some < 5 || (some < 200 && waiting == 0))
        call_node_fresh();
    else if (some < 20 || (some < 700 && waiting == 0))
        call_node_begin(below(2) == 0);
    else if (some < 80)
        call_node_frame();
    else if (some < 700)
        call_node_message();
    else if (some < 750)
        call_next();
    else if (some < 800)
        call_read();
    else if (some < 850)
        call_write();
    else if (some < 875)
        call_figures();
    else if (some < 900)
        call_page();
    else if (some < 902)
        call_cluster(below(2) == 0 ? FRESH : STOP);
    else
        call_cluster(some < 910 ? UPDATE : some < 918 ? SCAN : DELIVER);
}

static void take_back(void)
{
    for (size_t i = 0; i < REGIONS; i++)
        regions[i]->length = 0;
}

/* What a node and a cluster of NODES that are made with this f are answered: both the same. */
static uint8_t made_with(size_t f)
{
    uint8_t *r = lend_any(&record, SNAPSHOT_RECORD), *b = lend(&cluster, sizeof house, house, sizeof house);
    uint8_t code = snapshot_node_fresh(NODES, f, 1, r, SNAPSHOT_RECORD);
    if (snapshot_fresh(NODES, f, b, sizeof house) != code)
        fail("a node and a cluster are answered differently");
    accepted(FRESH, code);
    return code;
}

/* Puts an f where a record has it: eight bytes after those of n, high byte first. */
static void put_faults(uint8_t *made, size_t f)
{
    for (size_t i = 0; i < 8; i++)
        made[8 + i] = (uint8_t)(f >> (56 - 8 * i));
}

/* What is answered where a record that was made with f = 1 has this one. */
static uint8_t recorded(size_t f)
{
    if (snapshot_node_fresh(NODES, 1, 1, node, sizeof node) != SNAPSHOT_TAKEN)
        fail("no node");
    put_faults(node, f);
    uint8_t *r = lend_exactly(&record, sizeof node, node, sizeof node), *o = lend_any(&out, SNAPSHOT_OUTPUT);
    size_t *count = lend_any(&length, sizeof *count);
    uint8_t code = snapshot_node_begin_scan(r, sizeof node, o, SNAPSHOT_OUTPUT, count);
    accepted(NODE_SCAN, code);
    return code;
}

/* What is answered where a cluster that was made with f = 1 has this one in byte 1, or in the record of node 2, which
 * stands a byte past the end of what a cluster of one node has. */
static uint8_t in_cluster(size_t f, bool in_byte_1)
{
    if (snapshot_fresh(NODES, 1, house, sizeof house) != SNAPSHOT_TAKEN)
        fail("no cluster");
    if (in_byte_1)
        house[1] = (uint8_t)f;
    else
        put_faults(house + SNAPSHOT_CLUSTER(1) + 1, f);
    uint8_t *b = lend_exactly(&cluster, sizeof house, house, sizeof house);
    uint8_t code = snapshot_stop(b, sizeof house, 1);
    accepted(STOP, code);
    return code;
}

static uint8_t stated(size_t f) { return in_cluster(f, true); }
static uint8_t unequal(size_t f) { return in_cluster(f, false); }

/* Tells what is answered to each f, up to the most that has room. */
static void tell_faults(const char *name, uint8_t (*answer)(size_t f), size_t most)
{
    static const size_t faults[] = {0, 1, 2, 7, 8, UINT8_MAX, SIZE_MAX / 2, SIZE_MAX / 2 + 1, SIZE_MAX};
    printf("%-12s", name);
    for (size_t i = 0; i < sizeof faults / sizeof *faults && faults[i] <= most; i++) {
        take_back();
        printf(" %zu:%d", faults[i], answer(faults[i]));
    }
    printf("\n");
}

int main(void)
{
    open_regions();
    for (size_t k = 0; k < TRIALS; k++) {
        uint8_t to = 0;
        if (snapshot_next(n, link, waiting, &front, &to) != SNAPSHOT_TAKEN)
            front = SNAPSHOT_ENTRY; /* no message, but some bytes */
        take_back();
        call_some();
    }
    for (size_t call = 0; call < CALLS; call++) {
        printf("%-12s", names[call]);
        for (size_t code = 0; code <= UINT8_MAX; code++) {
            if (answers[call][code] > 0)
                printf(" %zu:%u", code, answers[call][code]);
        }
        printf("\n");
    }
    tell_faults("f given", made_with, SIZE_MAX);
    tell_faults("f recorded", recorded, SIZE_MAX);
    tell_faults("f unequal", unequal, SIZE_MAX);
    tell_faults("f stated", stated, UINT8_MAX);
    return 0;
}
