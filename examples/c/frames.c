/* Frames: whole messages of one sender, which one call hands over. Each case prints a line: what it is, the code, and
 * how many bytes went in and came out. Each frame that is taken is held against the same messages handed over one by
 * one, by what both leave. After each that is refused all that was lent must be as it was. */
#include "print.h"
#include "snapshot.h"
#include <stdio.h>
#include <stdlib.h>
#include <string.h>

#define NODES 3
#define OWN 1   /* the node that is called */
#define OTHER 2 /* a node that sends to it */
#define THIRD 3 /* one whose values the others pass on */
#define PATTERN 0xa5

/* What is lent to a call and may be written. */
struct lent {
    uint8_t record[SNAPSHOT_RECORD], out[SNAPSHOT_FRAME_OUTPUT], view[SNAPSHOT_VIEW];
    size_t length; /* of the messages in out */
};

static struct lent node;
static uint8_t frame[2 * SNAPSHOT_FRAME]; /* has room for frames that are too long */
static size_t frame_length;

static void expect(const char *what, bool holds)
{
    if (!holds) {
        fprintf(stderr, "%s\n", what);
        exit(1);
    }
}

/* The node has heard nothing, and there is no message in the frame. */
static void start(void)
{
    memset(node.out, PATTERN, sizeof node.out);
    memset(node.view, PATTERN, sizeof node.view);
    node.length = PATTERN;
    expect("fresh", snapshot_node_fresh(NODES, snapshot_most_faults(NODES), OWN, node.record, sizeof node.record) ==
                        SNAPSHOT_TAKEN);
    frame_length = 0;
}

/* Puts the message of these numbers at the end of the frame. */
static void add(uint64_t kind, uint64_t request, uint64_t writer, uint64_t tag)
{
    static const uint8_t report[SNAPSHOT_REPORT] = {0, 1, 0, 2, 0, 3, 0, 4}, no_reports[SNAPSHOT_ENTRY * NODES];
    const uint64_t numbers[4] = {kind, request, writer, tag};
    size_t count = 0;
    uint8_t code = snapshot_write(NODES, numbers, report, no_reports, sizeof no_reports, frame + frame_length,
                                  sizeof frame - frame_length, &count);
    expect("write", code == SNAPSHOT_TAKEN);
    frame_length += count;
}

static void add_reads(size_t times)
{
    for (size_t i = 1; i <= times; i++)
        add(SNAPSHOT_KIND_READ, i, 0, 0);
}

static void add_value(uint64_t writer, uint64_t tag) { add(SNAPSHOT_KIND_VALUE, 0, writer, tag); }

/* Hands the messages of the frame over one by one. Answers the code of the ending, 0 where there is none. */
static uint8_t one_by_one(struct lent *to, size_t sender)
{
    uint8_t out[SNAPSHOT_OUTPUT] = {0}, ending = SNAPSHOT_TAKEN;
    size_t count = 0, sent = 0;
    to->length = 0;
    for (size_t at = 0; at < frame_length; at += count) {
        uint8_t route = SNAPSHOT_TO_ALL;
        expect("next", snapshot_next(NODES, frame + at, frame_length - at, &count, &route) == SNAPSHOT_TAKEN);
        uint8_t code = snapshot_node_message(to->record, sizeof to->record, sender, frame + at, count, out, sizeof out,
                                             &sent, to->view);
        expect("a message of a frame that is taken is refused", !snapshot_is_refusal(code));
        expect("a frame has two endings", code == SNAPSHOT_TAKEN || ending == SNAPSHOT_TAKEN);
        ending = code == SNAPSHOT_TAKEN ? ending : code;
        memcpy(to->out + to->length, out, sent);
        to->length += sent;
    }
    return ending;
}

/* Hands the frame over, and looks at all that it leaves. */
static uint8_t hand_over(size_t sender, size_t record_length, size_t room)
{
    struct lent other = node;
    uint8_t code = snapshot_node_frame(node.record, record_length, sender, frame, frame_length, node.out, room,
                                       &node.length, node.view);
    expect("another code than one by one", snapshot_is_refusal(code) || code == one_by_one(&other, sender));
    expect("another record", memcmp(node.record, other.record, sizeof node.record) == 0);
    expect("another output", node.length == other.length && memcmp(node.out, other.out, sizeof node.out) == 0);
    expect("another view", memcmp(node.view, other.view, sizeof node.view) == 0);
    return code;
}

static void tell(const char *what, uint8_t code)
{
    printf("%-36s%4d%6zu in", what, code, frame_length);
    if (!snapshot_is_refusal(code))
        printf("%6zu out", node.length);
    printf("\n");
}

/* Hands the frame over with all the room that is asked, and tells how it went. */
static uint8_t show(const char *what, size_t sender)
{
    uint8_t code = hand_over(sender, sizeof node.record, sizeof node.out);
    tell(what, code);
    return code;
}

static void show_one_message(void)
{
    static const char *const kinds[] = {"a read",  "a read answer", "a write",       "a write answer",
                                        "an echo", "a value",       "a good message"};
    for (size_t i = 0; i < sizeof kinds / sizeof *kinds; i++) {
        start();
        add(SNAPSHOT_KIND_READ + i, 1, OTHER, 1);
        show(kinds[i], OTHER);
    }
}

/* The most messages that a frame has. The answers go back to its sender, in frames that snapshot_next helps to cut. */
static void show_hundred_reads(void)
{
    start();
    add_reads(100);
    show("a hundred reads", OTHER);
    size_t count = 0, packed = 0;
    printf("their answers, in frames:");
    for (size_t at = 0; at < node.length; at += count) {
        uint8_t route = SNAPSHOT_TO_ALL, code = snapshot_next(NODES, node.out + at, node.length - at, &count, &route);
        expect("no answer", code == SNAPSHOT_TAKEN && route == SNAPSHOT_TO_SENDER);
        if (packed + count > SNAPSHOT_FRAME) {
            printf(" %zu", packed);
            packed = 0;
        }
        packed += count;
    }
    printf(" %zu\n", packed);
}

static void show_lengths(void)
{
    start();
    show("no message", OTHER);
    add_reads(101);
    show("a hundred and one reads", OTHER);
    frame_length = SNAPSHOT_FRAME + 1;
    show("a byte too many", OTHER);
    frame_length = SNAPSHOT_FRAME - 1;
    show("a last read that lacks a byte", OTHER);
    frame_length = SNAPSHOT_FRAME;
    tell("a record that lacks a byte", hand_over(OTHER, sizeof node.record - 1, sizeof node.out));
    tell("an output that lacks a byte", hand_over(OTHER, sizeof node.record, sizeof node.out - 1));
    tell("by the call for one message",
         snapshot_node_message(node.record, sizeof node.record, OTHER, frame, frame_length, node.out, sizeof node.out,
                               &node.length, node.view));
}

/* A value that cannot come now is judged on the record as the messages before it have left it. */
static void show_values(void)
{
    start();
    add_value(OTHER, 5);
    show("a value", OTHER);
    frame_length = 0;
    add_reads(98);
    add_value(OTHER, 4);
    show("98 reads and an older value", OTHER);
    frame_length = 0;
    add_value(OTHER, 4);
    add_reads(98);
    show("an older value and 98 reads", OTHER);
    frame_length--;
    show(".. of which the last lacks a byte", OTHER);

    start();
    add_value(THIRD, 5);
    add_value(THIRD, 4);
    show("two values, the older one last", OTHER);
    frame_length = 0;
    add_value(THIRD, 4);
    add_value(THIRD, 5);
    show("two values, the first above maxtag", OTHER);
    frame_length = 0;
    add_value(THIRD, 4);
    show("the first alone", OTHER);
    frame_length = 0;
    add_value(THIRD, 5);
    show("then the second", OTHER);
    frame_length = 0;
    add(SNAPSHOT_KIND_ECHO, 0, 0, 4);
    add_value(THIRD, 5);
    show("then an echo and the second", OTHER);
}

/* A scan that is ended by the second message of four. What comes after it is handled like anything else; with a fault
 * after it, it has not ended. */
static void show_ending(void)
{
    start();
    add_value(OTHER, 1);
    show("a value", OTHER);
    show("the same, passed on to oneself", OWN);
    expect("begin", snapshot_node_begin_scan(node.record, sizeof node.record, node.out, sizeof node.out,
                                             &node.length) == SNAPSHOT_TAKEN);
    frame_length = 0;
    add(SNAPSHOT_KIND_READ, 1, 0, 0);
    add(SNAPSHOT_KIND_READ_ANSWER, 1, 0, 0);
    show("a scan's read, and an answer to it", OWN);
    frame_length = 0;
    add(SNAPSHOT_KIND_READ_ANSWER, 1, 0, 1);
    show("the other answer", OTHER);
    frame_length = 0;
    add(SNAPSHOT_KIND_WRITE, 2, 0, 1);
    add(SNAPSHOT_KIND_WRITE_ANSWER, 2, 0, 1);
    show("its write, and an answer to it", OWN);
    frame_length = 0;
    add(SNAPSHOT_KIND_READ, 1, 0, 0);
    add(SNAPSHOT_KIND_WRITE_ANSWER, 2, 0, 1);
    add_value(OTHER, 2);
    size_t whole = frame_length;
    add_value(OTHER, 1);
    show("the other answer, and an older value", OTHER);
    frame_length = whole;
    add(SNAPSHOT_KIND_READ, 2, 0, 0);
    uint8_t code = show("the other answer among others", OTHER);
    expect("no scan has ended", snapshot_is_scan(code));
    printf("scan %d", OWN);
    print_view(stdout, NODES, node.view);
    printf("\n");
}

/* The refusals in their order, by every set of faults: the first is answered. */
static void show_order(void)
{
    static const uint8_t order[] = {SNAPSHOT_REFUSED_LENGTH, SNAPSHOT_REFUSED_UNUSABLE, SNAPSHOT_REFUSED_NODE,
                                    SNAPSHOT_REFUSED_FRAME,  SNAPSHOT_REFUSED_LAYOUT,   SNAPSHOT_REFUSED_VALUE};
    unsigned answers[SNAPSHOT_REFUSED_FRAME + 1] = {0};
    for (unsigned faults = 1; faults < 1u << sizeof order; faults++) {
        bool has[SNAPSHOT_REFUSED_FRAME + 1] = {false};
        unsigned first = 0;
        for (unsigned i = 0; i < sizeof order; i++)
            has[order[i]] = (faults >> i & 1) != 0;
        while (!has[order[first]])
            first++;
        start();
        add_value(OTHER, 5);
        expect("a value", hand_over(OTHER, sizeof node.record, sizeof node.out) == SNAPSHOT_TAKEN);
        frame_length = 0;
        add_value(OTHER, has[SNAPSHOT_REFUSED_VALUE] ? 4 : 5);
        add_reads(has[SNAPSHOT_REFUSED_FRAME] ? 99 : 98);
        if (has[SNAPSHOT_REFUSED_LAYOUT])
            frame_length--;
        if (has[SNAPSHOT_REFUSED_UNUSABLE])
            node.record[7] = SNAPSHOT_NODES + 1; /* the low byte of its n */
        uint8_t code = hand_over(has[SNAPSHOT_REFUSED_NODE] ? NODES + 1 : OTHER, sizeof node.record,
                                 sizeof node.out - has[SNAPSHOT_REFUSED_LENGTH]);
        expect("not the first refusal", code == order[first]);
        answers[code]++;
    }
    printf("every set of faults:");
    for (size_t i = 0; i < sizeof order; i++)
        printf(" %d:%u", order[i], answers[order[i]]);
    printf("\n");
}

int main(void)
{
    show_one_message();
    show_hundred_reads();
    show_lengths();
    show_values();
    show_ending();
    show_order();
    return 0;
}
