/* The calls of the proved atomic snapshot, for C99 and C++: all that an engineer of a cabinet's firmware has to know.
 * They are those of crates/snapshot/src/lib.rt, in the archive that `rt lib --cpu x86-64` in crates/snapshot writes:
 * crates/snapshot/out/libsnapshot.a, for x86-64 Linux (System V calling convention). README.md has a first program.
 *
 * In this file a node is document 01's cabinet, a cluster its house, a channel its trunk, a tag its stamp, a scan its
 * look.
 *
 * There are three groups of calls, and snapshot_most_faults, which serves the first two:
 *   one node         snapshot_node_..: a cabinet, in a record that you lend. You send and receive its messages.
 *   a cluster        snapshot_fresh, .._begin_.., .._deliver, .._stop: n nodes and the channels between them, in one
 *                    run of lent bytes, to try out a whole house in one program.
 *   bytes            snapshot_next, snapshot_read, snapshot_write, snapshot_figures, snapshot_page: messages and views.
 *
 * WHAT LINKS OWE, where each node runs by itself. That all operations have one single order rests on it:
 *   1. A link, from one node to another or to itself, loses no message, repeats none, alters none and keeps their
 *      order. It may be as slow as it likes. What was sent to a node that has stopped may be dropped.
 *   2. The messages of one output are sent in their order: message k to every node that gets it before message k + 1 to
 *      any. So a stop in the middle of sending leaves a first part of the list, and not a part on each link.
 *   3. A node gets its own messages too: what goes to all goes to nodes 1 to n in turn, the sender among them, and is
 *      handed to it like any other, with its own number as the sender.
 *   4. All messages of an output are sent before the next call on the record, and before its ending is told to anyone.
 *   5. A record is never put back from an older copy (it may be moved: it holds no address). A node that has lost its
 *      record, or that was interrupted in the middle of a call or of sending, has stopped and does not come back.
 *   6. All nodes have the same n and the same f, each its own number, and each starts from snapshot_node_fresh. No
 *      message carries f, so no call finds out that two nodes differ in it.
 *   7. A link may hand over its oldest messages together, whole and in their order, as a frame (snapshot_node_frame).
 *      Who packs messages before they are sent owes rule 2 all the same: no message leaves in a frame for one node
 *      before all that stand before it have left for the others.
 * Fewer than half of the nodes may stop: f of n, where f is what all nodes were made with, 0 to 7 with 2f < n. With a
 * smaller f fewer may stop, and an operation waits for a larger quorum, which is n - f nodes. While no more than f have
 * stopped, each operation at a standing node is to end, once all messages to standing nodes are handed over. Both are
 * proved, for every such f, of the algorithm on links with room for anything. Of each call here it is proved that it
 * does what its definition says, and that definition follows the algorithm's step for each message that a run hands
 * over. That a whole house of such calls does the algorithm's run is proved of the cluster below, and not yet of links
 * of your own.
 *
 * WHAT THE CALLER OWES, of every call, since no call can test it:
 *   - A pointer is never null, not even beside length 0, where nothing is read or written through it. It points to as
 *     many bytes as its length says, or to a whole array of the length that stands in the prototype.
 *   - The memory has been written before, with anything at all: clear a local array or what malloc gave once.
 *   - No two regions that are lent to one call overlap, the numbers behind pointers among them, unless both are const.
 *   - Bytes may stand at any address. A size_t, a uint64_t[4] and a uint32_t[4] are aligned as their type is.
 *   - A bool is 0 or 1, as every bool of C99 and C++ is.
 *   - Nobody else reads or writes what is lent while the call runs, but for regions that are const, which others may
 *     read. So calls on different memory may run at the same time on different threads, and calls on one record or one
 *     cluster may not: put a lock around them.
 * Nothing is asked of contents: every call takes any numbers and any bytes, and answers its result or a refusal.
 *
 * WHAT EVERY CALL KEEPS:
 *   - It answers a code (but for the two sizes and snapshot_most_faults): a refusal, the first in the order that stands
 *     beside the call and only on its condition; an ending; or 0.
 *   - A refusal writes nothing: each lent byte and number is as it was. Without a refusal exactly what is named beside
 *     the call is written, and every other lent byte is as it was.
 *   - It always returns. It has no state but what is lent, keeps no pointer, and neither allocates, blocks nor makes a
 *     system call. Of other code it calls memcpy and memset alone.
 *   - It takes little stack, in bytes: of one node a begin 500, a message or a frame 4200; of a cluster fresh 2200,
 *     a begin 3300, a delivery 7700, a stop 400; all others 200. This is measured on x86-64 Linux, where no round fails
 *     (examples/c/stack.c), and rounded up: it is no proved bound.
 */
#ifndef SNAPSHOT_H
#define SNAPSHOT_H

#include <stddef.h>
#include <stdint.h>
#ifndef __cplusplus
#include <stdbool.h>
#endif

/* The most nodes; all other sizes are in bytes. */
#define SNAPSHOT_NODES 16

/* A report: four counts of 16 bits, high byte first: extensions busy, outside lines busy, calls waiting, wake-up calls
 * set. */
#define SNAPSHOT_REPORT 8

/* An entry of a view: a tag of 8 bytes, high byte first, then a report. Tag 0, with a report of zeros: no report. */
#define SNAPSHOT_ENTRY 16

/* A view: sixteen entries, that of node 1 first; those past n are zeros. */
#define SNAPSHOT_VIEW 256

/* The record of one node, as snapshot_node_size() answers. */
#define SNAPSHOT_RECORD 3176

/* The least length of an output, but for a frame's. The messages of one begin or one message take at most 341 of it. */
#define SNAPSHOT_OUTPUT 512

/* The longest message: a good one of sixteen nodes. */
#define SNAPSHOT_LONGEST 274

/* The longest frame: whole messages of one sender, one after the other. */
#define SNAPSHOT_FRAME 1500

/* The least length of an output for a frame. What its messages give rise to never takes more. */
#define SNAPSHOT_FRAME_OUTPUT 8192

/* A line of the desk's page: 34 columns and a line feed. */
#define SNAPSHOT_LINE 35

/* The page of n nodes, n from 1 to 16: for the length of an array. */
#define SNAPSHOT_PAGE(n) (SNAPSHOT_LINE * ((n) + 1))

/* A cluster of n nodes, n from 1 to 16, as snapshot_size(n) answers: for the length of an array. */
#define SNAPSHOT_CLUSTER(n) (2 + 73353 * (n))

/* A refusal: the call did nothing, and wrote nothing. Refusals that are added later stay below 100. */
enum snapshot_refusal {
    SNAPSHOT_REFUSED_SIZE = 1,      /* n is not 1 to 16, f not 0 to 7 with 2f < n, or an own number not 1 to n */
    SNAPSHOT_REFUSED_UNUSABLE = 2,  /* the record, or the cluster, is not one that can be used */
    SNAPSHOT_REFUSED_NODE = 3,      /* no node has this number: it is not 1 to n */
    SNAPSHOT_REFUSED_STOPPED = 4,   /* this node has stopped */
    SNAPSHOT_REFUSED_OPEN = 5,      /* an operation is open at this node, and it has one at a time */
    SNAPSHOT_REFUSED_REQUESTS = 6,  /* fewer than five request numbers are left */
    SNAPSHOT_REFUSED_LAYOUT = 7,    /* not of the layout */
    SNAPSHOT_REFUSED_EMPTY = 8,     /* no message waits on this channel */
    SNAPSHOT_REFUSED_VALUE = 9,     /* a value that cannot come now: a link has lost, repeated or swapped messages */
    SNAPSHOT_REFUSED_STOPS = 10,    /* f nodes have stopped, and this would be one more */
    SNAPSHOT_REFUSED_FULL = 11,     /* a channel of the cluster would hold more than 16 messages */
    SNAPSHOT_REFUSED_LENGTH = 12,   /* a lent length is not the one that is asked, or is below the least */
    SNAPSHOT_REFUSED_FRAME = 14,    /* a frame is empty, or longer than SNAPSHOT_FRAME */
    SNAPSHOT_REFUSED_PAGE = 15      /* the lent bytes are too few for the page */
};

/* The other codes. The last digit of 100 to 113 is the rule that ended the operation: 0, its three rounds failed and it
 * took the view of a good message; or the number of its good round. */
enum snapshot_ending {
    SNAPSHOT_TAKEN = 0,             /* done, and no operation has ended */
    SNAPSHOT_SPENT = 13,            /* an update ended without effect: no tag was left for it */
    SNAPSHOT_DONE_BORROWED = 100,   /* an update is done */
    SNAPSHOT_DONE_ROUND_1 = 101,
    SNAPSHOT_DONE_ROUND_2 = 102,
    SNAPSHOT_DONE_ROUND_3 = 103,
    SNAPSHOT_SCAN_BORROWED = 110,   /* a scan has ended, and its view is written */
    SNAPSHOT_SCAN_ROUND_1 = 111,
    SNAPSHOT_SCAN_ROUND_2 = 112,
    SNAPSHOT_SCAN_ROUND_3 = 113
};

/* The kinds of messages, with their lengths in bytes. */
enum snapshot_kind {
    SNAPSHOT_KIND_READ = 1,         /* 15 */
    SNAPSHOT_KIND_READ_ANSWER = 2,  /* 26 */
    SNAPSHOT_KIND_WRITE = 3,        /* 26 */
    SNAPSHOT_KIND_WRITE_ANSWER = 4, /* 26 */
    SNAPSHOT_KIND_ECHO = 5,         /* 15 */
    SNAPSHOT_KIND_VALUE = 6,        /* 30 */
    SNAPSHOT_KIND_GOOD = 7          /* 18 + 16 n: the view of n entries is its last 16 n bytes */
};

/* Where a message of an output goes. */
enum snapshot_route {
    SNAPSHOT_TO_ALL = 0,            /* to nodes 1 to n in turn, the sending one among them */
    SNAPSHOT_TO_SENDER = 1          /* to the sender of the message, or of the frame, that was handled */
};

/* What a code says: each is SNAPSHOT_TAKEN, SNAPSHOT_SPENT, or one of these three. */
static inline bool snapshot_is_done(uint8_t code)
{
    return SNAPSHOT_DONE_BORROWED <= code && code <= SNAPSHOT_DONE_ROUND_3;
}

static inline bool snapshot_is_scan(uint8_t code)
{
    return SNAPSHOT_SCAN_BORROWED <= code && code <= SNAPSHOT_SCAN_ROUND_3;
}

static inline bool snapshot_is_refusal(uint8_t code)
{
    return 0 < code && code < SNAPSHOT_DONE_BORROWED && code != SNAPSHOT_SPENT;
}

#ifdef __cplusplus
extern "C" {
#endif

/* ---- How many nodes may stop ----
 *
 * Who makes a node or a cluster chooses f, 0 to 7 with 2f < n. It stands in the record, and no other call changes it.
 */

/* The largest f with 2f < n, which is document 01's: (n - 1) / 2 rounded down, and 0 where n is 0. Refuses nothing,
 * writes nothing. */
size_t snapshot_most_faults(size_t n);

/* ---- One node ----
 *
 * `state` is its record, in SNAPSHOT_RECORD bytes that you lend.
 *
 * A record is unusable (refusal 2) where its n is not 1 to 16, its f not 0 to 7 with 2f < n, its own number not 1 to n,
 * the code of its wait not one of the five, the kind of its open operation not one of the two, its round not 0 to 3, or
 * a number above its limit; where a report that is held for maxtag (the top tag, by writes and echoes), for the open
 * round's tag, or in the kept view has a tag above that one; where bytes that are not zero stand beside tag 0; or where
 * fewer request numbers are left than the open operation may still use. What these calls leave is usable.
 */

/* The length of a node's record: SNAPSHOT_RECORD. Refuses nothing, writes nothing. */
size_t snapshot_node_size(void);

/* Makes the record that of node `own` of n, of which f may stop; it has heard nothing and has no open operation.
 *   1   n is not 1 to 16, f is not 0 to 7 with 2f < n, or own is not 1 to n
 *   12  state_len is not SNAPSHOT_RECORD
 * Answers 0. Writes the whole record. */
uint8_t snapshot_node_fresh(size_t n, size_t f, size_t own, uint8_t *state, size_t state_len);

/* Begins an update with this report. The messages to send stand in out[0] to out[*length - 1]: walk them with
 * snapshot_next. The update ends in a later snapshot_node_message or snapshot_node_frame.
 *   12  state_len is not SNAPSHOT_RECORD, or out_len is below SNAPSHOT_OUTPUT
 *   2   the record is unusable
 *   5   an operation is open
 *   6   fewer than five request numbers are left
 * Answers 0. Writes the record, the first *length bytes of out, and *length. */
uint8_t snapshot_node_begin_update(uint8_t *state, size_t state_len, const uint8_t report[SNAPSHOT_REPORT],
                                   uint8_t *out, size_t out_len, size_t *length);

/* Begins a scan; all else is as for an update. */
uint8_t snapshot_node_begin_scan(uint8_t *state, size_t state_len, uint8_t *out, size_t out_len, size_t *length);

/* Hands over one message that node `sender` has sent to this one. It may give rise to messages, which stand in
 * out[0] to out[*length - 1], and it may end the open operation.
 *   12  state_len is not SNAPSHOT_RECORD, or out_len is below SNAPSHOT_OUTPUT
 *   2   the record is unusable
 *   3   sender is not 1 to n
 *   7   the bytes are not one message of the layout
 *   9   a value whose tag is below the last that was heard from that sender for that writer, or above the writer's last
 *       while that last is above maxtag
 * Where all nodes and links keep what they owe, none of 2, 3, 7 and 9 is to be expected here. A node that meets one
 * should stop for good, which the others bear: to go on would be to lose a message, which they do not.
 * Answers 0, SNAPSHOT_SPENT, or 100 to 103, an update done, or 110 to 113, a scan ended. Writes the record, the first
 * *length bytes of out, *length (0 where nothing is to be sent), and, only where a scan ended, the view: n entries,
 * then zeros. */
uint8_t snapshot_node_message(uint8_t *state, size_t state_len, size_t sender, const uint8_t *bytes, size_t bytes_len,
                              uint8_t *out, size_t out_len, size_t *length, uint8_t view[SNAPSHOT_VIEW]);

/* Hands over a frame that node `sender` has sent to this one: one or more whole messages, one after the other. It does
 * what snapshot_node_message does with each in turn. All messages that they give rise to stand in out[0] to
 * out[*length - 1], in the order in which they came up.
 *   12  state_len is not SNAPSHOT_RECORD, or out_len is below SNAPSHOT_FRAME_OUTPUT
 *   2   the record is unusable
 *   3   sender is not 1 to n
 *   14  frame_len is 0 or above SNAPSHOT_FRAME
 *   7   one of the messages, wherever it stands, is not of the layout
 *   9   one of them is a value that cannot come now, as above, on the record as those before it have left it
 * One fault anywhere in a frame, and nothing of it takes effect. A node that meets one should stop for good, as above.
 * Answers 0 or the code of the ending, as above: a frame ends one operation at the most. Writes the record, the first
 * *length bytes of out, *length, and, only where a scan ended, the view. */
uint8_t snapshot_node_frame(uint8_t *state, size_t state_len, size_t sender, const uint8_t *frame, size_t frame_len,
                            uint8_t *out, size_t out_len, size_t *length, uint8_t view[SNAPSHOT_VIEW]);

/* The message at the front of the bytes: how long it is, and where it goes (enum snapshot_route). An output of *length
 * bytes is walked so, and so is a frame:
 *     for (at = 0; at < length; at += k) { snapshot_next(n, out + at, length - at, &k, &route); send out[at] to .. }
 *   1   n is not 1 to 16
 *   7   no message of the layout stands at the front
 * Answers 0. Writes *length, the length of that one message, and *route. */
uint8_t snapshot_next(size_t n, const uint8_t *bytes, size_t bytes_len, size_t *length, uint8_t *route);

/* ---- A cluster in lent bytes ----
 *
 * `cluster` is the whole of it, cluster_len what snapshot_size answers for its n. Refusals 12 and 2 are the same for
 * all calls but snapshot_fresh:
 *   12  cluster_len is 0, or byte 0 states an n from 1 to 16 and cluster_len is not the length for it
 *   2   byte 0 states another n; byte 1 states an f that is not 0 to 7 with 2f < n; a record is unusable, or that of
 *       another n, f or node; a channel counts above 16; or more than f nodes are stopped
 * An event that is cut (cut is true) lets out only its first messages, as many as `entries` says, one for each receiver
 * counted, or all where there are fewer; then its node has stopped, and its ending is not given. Where cut is false
 * entries is not looked at.
 */

/* The bytes to lend for a cluster of n nodes; 0 where n is not 1 to 16. Refuses nothing, writes nothing. */
size_t snapshot_size(size_t n);

/* Makes the bytes a fresh cluster of n nodes, of which f may stop.
 *   1   n is not 1 to 16, or f is not 0 to 7 with 2f < n
 *   12  cluster_len is not snapshot_size(n)
 * Answers 0. Writes the whole cluster. */
uint8_t snapshot_fresh(size_t n, size_t f, uint8_t *cluster, size_t cluster_len);

/* Begins an update with this report at a node.
 *   12, 2  above
 *   3   node is not 1 to n
 *   4   the node has stopped
 *   5   an operation is open at it
 *   6   fewer than five request numbers are left at it
 *   10  the event is cut and f nodes are stopped
 *   11  a channel would hold more than 16 messages
 * Answers 0. Writes the cluster. */
uint8_t snapshot_begin_update(uint8_t *cluster, size_t cluster_len, size_t node, const uint8_t report[SNAPSHOT_REPORT],
                              bool cut, size_t entries);

/* Begins a scan at a node; all else is as for an update. */
uint8_t snapshot_begin_scan(uint8_t *cluster, size_t cluster_len, size_t node, bool cut, size_t entries);

/* Hands the message that has waited longest on the channel between two nodes over to the second.
 *   12, 2  above
 *   3   from or to is not 1 to n
 *   4   `to` has stopped
 *   8   nothing waits on that channel
 *   7   what waits is not a message of the layout
 *   9   a value that cannot come now, as for one node
 *   10  the event is cut and f nodes are stopped
 *   11  a channel would hold more than 16 messages
 * Answers 0, SNAPSHOT_SPENT, or 100 to 103, an update done, or 110 to 113, a scan ended. Writes the cluster and, only
 * where a scan ended, the view: n entries, then zeros. */
uint8_t snapshot_deliver(uint8_t *cluster, size_t cluster_len, size_t from, size_t to, bool cut, size_t entries,
                         uint8_t view[SNAPSHOT_VIEW]);

/* Stops a node.
 *   12, 2  above
 *   3   node is not 1 to n
 *   4   it has stopped
 *   10  f nodes are stopped
 * Answers 0. Writes the cluster. */
uint8_t snapshot_stop(uint8_t *cluster, size_t cluster_len, size_t node);

/* ---- Messages and views ----
 *
 * The numbers of a message: numbers[0] its kind (enum snapshot_kind), [1] its request number, [2] its writer, [3] its
 * tag. The layout allows request numbers from 1 to 2^63 - 1, writers from 1 to n, tags from 0 (of an echo and a value
 * from 1) to 2^63 - 1, and in a good message a view of 16 n bytes without a tag above its own and with zeros beside
 * tag 0.
 */

/* Reads one message.
 *   1   n is not 1 to 16
 *   7   the bytes are not one message of the layout
 * Answers 0. Writes the numbers, 0 where the kind has none, and the report, zeros where it has none. The view of a good
 * message is the bytes from 18 on. */
uint8_t snapshot_read(size_t n, const uint8_t *bytes, size_t bytes_len, uint64_t numbers[4],
                      uint8_t report[SNAPSHOT_REPORT]);

/* Writes the message of these numbers at the front of out. The report is looked at only for a value, the view only for
 * a good message, and of the numbers those that the kind has.
 *   1   n is not 1 to 16
 *   7   the kind is not 1 to 7, or the layout does not allow its numbers or its view
 *   12  out_len is below the length of the message
 * Answers 0. Writes the message and *length, its length. */
uint8_t snapshot_write(size_t n, const uint64_t numbers[4], const uint8_t report[SNAPSHOT_REPORT], const uint8_t *view,
                       size_t view_len, uint8_t *out, size_t out_len, size_t *length);

/* The house figures over a view of n entries: three sums, and of calls waiting the largest count, since all nodes watch
 * one queue. A node without a report counts for nothing; all are 0 where no node has reported.
 *   12  view_len is not 16 n
 *   1   n is not 1 to 16
 *   7   a tag above its limit, or bytes that are not zero beside tag 0
 * Answers 0. Writes the figures: extensions busy, outside lines busy, calls waiting, wake-up calls set. */
uint8_t snapshot_figures(size_t n, const uint8_t *view, size_t view_len, uint32_t figures[4]);

/* The desk's page of a view of n entries, as text: a line for each node, then one with == and the house figures. A line
 * has the node right in 2 columns, then each of the four counts right in 7 after one space; where there is no report,
 * each count is a -. Tags are not shown. Of two nodes, the first of which has reported:
 *      1       1       2       3       4
 *      2       -       -       -       -
 *     ==       1       2       3       4
 *   12  view_len is not 16 n
 *   1   n is not 1 to 16
 *   7   a tag above its limit, or bytes that are not zero beside tag 0
 *   15  out_len is below SNAPSHOT_PAGE(n)
 * Answers 0. Writes the page, the first SNAPSHOT_PAGE(n) bytes of out, with no zero behind it, and *length, its length.
 */
uint8_t snapshot_page(size_t n, const uint8_t *view, size_t view_len, uint8_t *out, size_t out_len, size_t *length);

#ifdef __cplusplus
}
#endif

#endif
