/* A house of three cabinets in one program, each a node with a record of its own, and the links between them as queues:
 * what links owe (include/snapshot.h), in code. Nodes 1 and 2 update; when that is done, node 3 scans. Which link hands
 * over next is random, from a fixed seed, and so is how many of its oldest messages it packs in a frame. It prints the
 * endings and the house figures. */
#include "print.h"
#include "snapshot.h"
#include <stdio.h>
#include <stdlib.h>
#include <string.h>

#define NODES 3
#define ROOM 64 /* of a link: more messages than two updates and a scan of three nodes send on it */

struct message {
    size_t length;
    uint8_t bytes[SNAPSHOT_LONGEST];
};

/* First in, first out; nothing is lost and nothing comes twice. */
struct link {
    size_t first, count;
    struct message waiting[ROOM];
};

static uint8_t records[NODES + 1][SNAPSHOT_RECORD]; /* of node k at k; 0 is not used */
static struct link links[NODES + 1][NODES + 1];     /* from a node to a node, also to itself */
static uint8_t out[SNAPSHOT_FRAME_OUTPUT];
static size_t length; /* of the messages in out */
static uint8_t view[SNAPSHOT_VIEW];

/* Ends the program where a call refuses: none does here. */
static void expect_taken(const char *call, uint8_t code)
{
    if (snapshot_is_refusal(code)) {
        fprintf(stderr, "%s is refused: %d\n", call, code);
        exit(1);
    }
}

static void put(struct link *link, const uint8_t *bytes, size_t count)
{
    if (link->count == ROOM || count > SNAPSHOT_LONGEST) {
        fprintf(stderr, "a link is full\n");
        exit(1);
    }
    struct message *message = &link->waiting[(link->first + link->count) % ROOM];
    memcpy(message->bytes, bytes, count);
    message->length = count;
    link->count++;
}

/* Sends what stands in out: the messages in their order, each to all its receivers before the next to any. `asker` is
 * the sender of the frame that was handled; a begin has none, and no message for it. */
static void send_output(size_t own, size_t asker)
{
    size_t count = 0;
    for (size_t at = 0; at < length; at += count) {
        uint8_t route = SNAPSHOT_TO_ALL;
        expect_taken("next", snapshot_next(NODES, out + at, length - at, &count, &route));
        if (route == SNAPSHOT_TO_SENDER) {
            put(&links[own][asker], out + at, count);
        } else {
            for (size_t node = 1; node <= NODES; node++)
                put(&links[own][node], out + at, count);
        }
    }
}

/* A number below the bound, by a generator of Lehmer's. */
static size_t below(size_t bound)
{
    static uint32_t state = 2026;
    state = (uint32_t)((uint64_t)state * 48271 % 2147483647);
    return state % bound;
}

/* Packs some of the oldest messages of a link, on which at least one waits. Answers the length of the frame. */
static size_t pack(struct link *link, uint8_t frame[SNAPSHOT_FRAME])
{
    size_t packed = 0;
    do {
        const struct message *message = &link->waiting[link->first];
        memcpy(frame + packed, message->bytes, message->length);
        packed += message->length;
        link->first = (link->first + 1) % ROOM;
        link->count--;
    } while (link->count > 0 && packed + link->waiting[link->first].length <= SNAPSHOT_FRAME && below(4) > 0);
    return packed;
}

/* Hands a frame of a link over. Its ending is told only after all that it gives rise to was sent. */
static void hand_over(size_t from, size_t to)
{
    uint8_t frame[SNAPSHOT_FRAME];
    size_t packed = pack(&links[from][to], frame);
    uint8_t code =
        snapshot_node_frame(records[to], SNAPSHOT_RECORD, from, frame, packed, out, sizeof out, &length, view);
    expect_taken("frame", code);
    send_output(to, from);
    if (snapshot_is_done(code))
        printf("done %zu\n", to);
    if (snapshot_is_scan(code)) {
        printf("scan %zu", to);
        print_view(stdout, NODES, view);
        printf("\n");
    }
}

/* Hands messages over until none waits: those of a random link on which some do, each time. */
static void run(void)
{
    for (;;) {
        size_t start = below(NODES * NODES), tried = 0;
        while (tried < NODES * NODES) {
            size_t k = (start + tried) % (NODES * NODES);
            size_t from = 1 + k / NODES, to = 1 + k % NODES;
            if (links[from][to].count > 0) {
                hand_over(from, to);
                break;
            }
            tried++;
        }
        if (tried == NODES * NODES)
            return;
    }
}

int main(void)
{
    static const uint8_t reports[][SNAPSHOT_REPORT] = {{0, 1, 0, 2, 0, 3, 0, 4}, {0, 10, 0, 20, 0, 5, 0, 40}};
    uint32_t figures[4] = {0};
    size_t f = snapshot_most_faults(NODES); /* so many may stop, though none does */
    for (size_t node = 1; node <= NODES; node++)
        expect_taken("fresh", snapshot_node_fresh(NODES, f, node, records[node], SNAPSHOT_RECORD));

    for (size_t node = 1; node <= 2; node++) {
        expect_taken("begin", snapshot_node_begin_update(records[node], SNAPSHOT_RECORD, reports[node - 1], out,
                                                         sizeof out, &length));
        send_output(node, 0);
    }
    run();
    expect_taken("begin", snapshot_node_begin_scan(records[3], SNAPSHOT_RECORD, out, sizeof out, &length));
    send_output(3, 0);
    run();

    expect_taken("figures", snapshot_figures(NODES, view, SNAPSHOT_ENTRY * NODES, figures));
    printf("figures %u %u %u %u\n", (unsigned)figures[0], (unsigned)figures[1], (unsigned)figures[2],
           (unsigned)figures[3]);
    return 0;
}
