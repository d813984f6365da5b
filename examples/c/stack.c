/* How much stack each call takes, held against what is stated of it. Each call runs on a stack of its own that was
 * filled with a pattern, and the lowest byte that it changed is looked for. The calls of events run through an update
 * and a scan, to the end of both: of one node, of sixteen, and of a cluster of sixteen; and into refusals. The most
 * that any of them took is printed beside what is stated. This is measured, and no proved bound. Exit status 1 where a
 * call took more than is stated, or answered otherwise than it should. */
#define _XOPEN_SOURCE 700
#include "snapshot.h"
#include <stdio.h>
#include <stdlib.h>
#include <string.h>
#include <ucontext.h>

#define MOST_FAULTS 7 /* of SNAPSHOT_NODES */
#define STACK 262144
#define PATTERN 0xa5

static const uint8_t report[SNAPSHOT_REPORT] = {0, 1, 0, 2, 0, 3, 0, 4};
static uint8_t view[SNAPSHOT_VIEW];
static size_t n, f; /* the nodes that run one by one, and how many of them may stop */
static uint8_t records[SNAPSHOT_NODES][SNAPSHOT_RECORD];
static size_t own; /* the node that is called */
static uint8_t out[SNAPSHOT_FRAME_OUTPUT];
static size_t length; /* of the messages in out */
static uint8_t cluster[SNAPSHOT_CLUSTER(SNAPSHOT_NODES)];
static size_t from, to; /* the channel of a delivery; a node's message comes from `from` too */
static const uint8_t *message; /* or a frame */
static size_t message_length;
static uint8_t route;
static uint64_t numbers[4];
static uint8_t read_report[SNAPSHOT_REPORT];
static uint32_t house_figures[4];

static uint8_t code; /* what the last call answered */

static void nothing(void) {}
static void most_faults(void) { code = snapshot_most_faults(SNAPSHOT_NODES) != MOST_FAULTS; }
static void node_size(void) { code = snapshot_node_size() != SNAPSHOT_RECORD; }
static void node_fresh(void) { code = snapshot_node_fresh(n, f, own, records[own - 1], SNAPSHOT_RECORD); }
static void node_update(void)
{
    code = snapshot_node_begin_update(records[own - 1], SNAPSHOT_RECORD, report, out, sizeof out, &length);
}
static void node_scan(void)
{
    code = snapshot_node_begin_scan(records[own - 1], SNAPSHOT_RECORD, out, sizeof out, &length);
}
static void node_message(void)
{
    code = snapshot_node_message(records[own - 1], SNAPSHOT_RECORD, from, message, message_length, out, sizeof out,
                                 &length, view);
}
static void node_frame(void)
{
    code = snapshot_node_frame(records[own - 1], SNAPSHOT_RECORD, from, message, message_length, out, sizeof out,
                               &length, view);
}
static void size(void) { code = snapshot_size(SNAPSHOT_NODES) != sizeof cluster; }
static void fresh(void) { code = snapshot_fresh(SNAPSHOT_NODES, MOST_FAULTS, cluster, sizeof cluster); }
static void update(void) { code = snapshot_begin_update(cluster, sizeof cluster, 1, report, false, 0); }
static void scan(void) { code = snapshot_begin_scan(cluster, sizeof cluster, 2, false, 0); }
static void deliver(void) { code = snapshot_deliver(cluster, sizeof cluster, from, to, false, 0, view); }
static void halt(void) { code = snapshot_stop(cluster, sizeof cluster, 3); }
static void read_one(void) { code = snapshot_read(SNAPSHOT_NODES, out, length, numbers, read_report); }
static void write_one(void)
{
    code = snapshot_write(SNAPSHOT_NODES, numbers, report, view, sizeof view, out, sizeof out, &length);
}
static void next(void) { code = snapshot_next(SNAPSHOT_NODES, out, length, &message_length, &route); }
static void figures(void) { code = snapshot_figures(SNAPSHOT_NODES, view, sizeof view, house_figures); }
static void page(void) { code = snapshot_page(SNAPSHOT_NODES, view, sizeof view, out, sizeof out, &length); }

/* The calls, what is stated of each in snapshot.h and README.md, and the most stack that each has taken. */
static struct call {
    const char *name;
    void (*run)(void);
    size_t stated, most;
} calls[] = {
    {"snapshot_most_faults", most_faults, 200, 0},
    {"snapshot_node_size", node_size, 200, 0},
    {"snapshot_node_fresh", node_fresh, 200, 0},
    {"snapshot_node_begin_update", node_update, 500, 0},
    {"snapshot_node_begin_scan", node_scan, 500, 0},
    {"snapshot_node_message", node_message, 4200, 0},
    {"snapshot_node_frame", node_frame, 4200, 0},
    {"snapshot_size", size, 200, 0},
    {"snapshot_fresh", fresh, 2200, 0},
    {"snapshot_begin_update", update, 3300, 0},
    {"snapshot_begin_scan", scan, 3300, 0},
    {"snapshot_deliver", deliver, 7700, 0},
    {"snapshot_stop", halt, 400, 0},
    {"snapshot_read", read_one, 200, 0},
    {"snapshot_write", write_one, 200, 0},
    {"snapshot_next", next, 200, 0},
    {"snapshot_figures", figures, 200, 0},
    {"snapshot_page", page, 200, 0},
};

#define CALLS (sizeof calls / sizeof *calls)

static uint8_t stack[STACK];
static ucontext_t home, away;
static void (*subject)(void); /* what runs on the stack */

static void enter(void) { subject(); }

/* The bytes from the top of the stack to the lowest that this changes. */
static size_t depth(void (*run)(void))
{
    memset(stack, PATTERN, sizeof stack);
    subject = run;
    if (getcontext(&away) != 0)
        exit(1);
    away.uc_stack.ss_sp = stack;
    away.uc_stack.ss_size = sizeof stack;
    away.uc_link = &home;
    makecontext(&away, enter, 0);
    if (swapcontext(&home, &away) != 0)
        exit(1);
    size_t low = 0;
    while (stack[low] == PATTERN)
        low++;
    if (low == 0) {
        fprintf(stderr, "the stack is too small\n");
        exit(1);
    }
    return sizeof stack - low;
}

static size_t base; /* what nothing takes: the frames around a call */

/* Makes a call and keeps what it took. Answers whether it was accepted. */
static bool accepted(void (*run)(void))
{
    size_t whole = depth(run);
    for (size_t i = 0; i < CALLS; i++) {
        if (calls[i].run == run && whole > base + calls[i].most)
            calls[i].most = whole - base;
    }
    return !snapshot_is_refusal(code);
}

static void fail(void)
{
    fprintf(stderr, "a call answers %d\n", code);
    exit(1);
}

static void expect(void (*run)(void))
{
    if (!accepted(run))
        fail();
}

static void expect_refusal(void (*run)(void), uint8_t refusal)
{
    if (accepted(run) || code != refusal)
        fail();
}

/* What the nodes have sent, oldest first: more than an update or a scan of sixteen sends. */
static struct {
    size_t from, to, length;
    uint8_t bytes[SNAPSHOT_LONGEST];
} sent[4096];
static size_t first, last;

/* Sends what node `own` has put out on a message of node `from`. */
static void send_output(void)
{
    for (size_t at = 0; at < length; at += message_length) {
        code = snapshot_next(n, out + at, length - at, &message_length, &route);
        for (size_t k = 1; k <= n; k++) {
            if (route == SNAPSHOT_TO_SENDER && k != from)
                continue;
            if (code != SNAPSHOT_TAKEN || last == sizeof sent / sizeof *sent)
                fail();
            sent[last].from = own;
            sent[last].to = k;
            sent[last].length = message_length;
            memcpy(sent[last++].bytes, out + at, message_length);
        }
    }
}

/* Begins an operation at node 1 and hands over every message of the nodes by this call, until none is left. */
static void exchange(void (*begin)(void), void (*hand_over)(void))
{
    own = 1;
    first = last = 0;
    expect(begin);
    send_output();
    expect_refusal(begin, SNAPSHOT_REFUSED_OPEN);
    while (first < last) {
        own = sent[first].to;
        from = sent[first].from;
        message = sent[first].bytes;
        message_length = sent[first++].length;
        expect(hand_over);
        send_output();
    }
    message_length--; /* the last message lacks a byte */
    expect_refusal(hand_over, SNAPSHOT_REFUSED_LAYOUT);
}

static void call_nodes(size_t nodes, void (*hand_over)(void))
{
    n = nodes;
    f = snapshot_most_faults(n);
    for (own = 1; own <= n; own++)
        expect(node_fresh);
    exchange(node_update, hand_over);
    exchange(node_scan, hand_over);
}

/* A frame of as many messages as it can have: reads. */
static void call_with_reads(void)
{
    static uint8_t reads[SNAPSHOT_FRAME];
    numbers[0] = SNAPSHOT_KIND_READ;
    numbers[1] = 1;
    expect(write_one);
    for (size_t at = 0; at < sizeof reads; at += length)
        memcpy(reads + at, out, length);
    own = from = 1;
    message = reads;
    message_length = sizeof reads;
    expect(node_frame);
}

/* Delivers every message of the cluster, until none waits. */
static void deliver_all(void)
{
    for (bool delivered = true; delivered;) {
        delivered = false;
        for (from = 1; from <= SNAPSHOT_NODES; from++) {
            for (to = 1; to <= SNAPSHOT_NODES; to++)
                delivered = accepted(deliver) || delivered;
        }
    }
}

static void call_all(void)
{
    expect(most_faults);
    expect(node_size);
    call_nodes(1, node_message);
    call_nodes(SNAPSHOT_NODES, node_message);
    call_nodes(1, node_frame);
    call_nodes(SNAPSHOT_NODES, node_frame);
    call_with_reads();

    expect(size);
    expect(fresh);
    expect(update);
    expect_refusal(update, SNAPSHOT_REFUSED_OPEN);
    deliver_all();
    expect(scan);
    expect_refusal(scan, SNAPSHOT_REFUSED_OPEN);
    deliver_all();
    expect(halt);
    expect_refusal(halt, SNAPSHOT_REFUSED_STOPPED);

    /* A good message of sixteen nodes, with the view of the scan. */
    numbers[0] = SNAPSHOT_KIND_GOOD;
    numbers[3] = 1;
    expect(write_one);
    expect(read_one);
    expect(next);
    expect(figures);
    expect(page);
}

int main(void)
{
    bool within = true;

    /* The second time counts: in the first the loader looks for memcpy and memset, on the stack of the call. */
    base = depth(nothing);
    call_all();
    for (size_t i = 0; i < CALLS; i++)
        calls[i].most = 0;
    call_all();

    for (size_t i = 0; i < CALLS; i++) {
        printf("%-28s%6zu of %6zu\n", calls[i].name, calls[i].most, calls[i].stated);
        within = within && calls[i].most <= calls[i].stated;
    }
    return within ? 0 : 1;
}
