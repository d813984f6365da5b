/* One cabinet of a house as a program of its own: cabinet N F OWN, the number of cabinets, how many of them may stop,
 * and its own number. All cabinets of a house have the same N and the same F. It steps on what comes in on standard
 * input and writes what is to be sent to standard output; the program around it owns the links.
 *
 * Standard input is a row of commands, standard output one of messages. Lengths have two bytes, high byte first.
 *   'u', 8 bytes                           begin an update with this report
 *   's'                                    begin a scan
 *   'm', sender, length, frame             one or more messages of that cabinet, 1 to N, have come in
 *   receiver, length, message              (out) send this message to that cabinet, 1 to N, or to all where it is 0
 *
 * To plug it to links: put each message that comes out on its link or, for receiver 0, on the links to cabinets 1 to N
 * in turn, before the next message; the link to the cabinet itself leads back to its own standard input. What a link
 * brings from cabinet s, one message or some in a frame, goes in as 'm', s, length, frame. Go on reading while you
 * write, or the two may wait for each other. Both ends block: a read waits for input, a write for room.
 *
 * Endings, and refusals of a begin, are told in a line each on standard error, after all messages of the step are out.
 * A frame that is refused was not sent so by a cabinet of this house, or a link has lost something. Then the cabinet
 * stops, which the others can bear, for to go on without a message is what they cannot. The record is nowhere but in
 * this process: a cabinet that has ended does not come back.
 *
 * Exit status: 0 at the end of input, 1 for wrong arguments, 2 where input is broken (another command, an end within a
 * command, a frame too long, a frame that is refused, a failed read), 3 where output cannot be written.
 *
 * Nothing is allocated. */
#define _POSIX_C_SOURCE 200809L
#include "print.h"
#include "snapshot.h"
#include <errno.h>
#include <signal.h>
#include <stdio.h>
#include <stdlib.h>
#include <string.h>
#include <unistd.h>

enum { ENDED = 0, BAD_ARGUMENTS = 1, BROKEN_INPUT = 2, NO_OUTPUT = 3 }; /* exit status */

#define HEAD 3 /* sender or receiver, length */

static size_t n;
static uint8_t record[SNAPSHOT_RECORD];
static uint8_t out[SNAPSHOT_FRAME_OUTPUT];
static size_t length; /* of the messages in out */
static uint8_t view[SNAPSHOT_VIEW];

static void stop(int status, const char *why)
{
    fprintf(stderr, "stopped: %s\n", why);
    exit(status);
}

/* What a begin or a frame may be refused for. The other refusals are of other calls, or of lengths. */
static const char *reason(uint8_t refusal)
{
    switch (refusal) {
    case SNAPSHOT_REFUSED_UNUSABLE:
        return "the record is unusable";
    case SNAPSHOT_REFUSED_NODE:
        return "no cabinet has the sender's number";
    case SNAPSHOT_REFUSED_OPEN:
        return "an operation is open";
    case SNAPSHOT_REFUSED_REQUESTS:
        return "too few request numbers are left";
    case SNAPSHOT_REFUSED_LAYOUT:
        return "the bytes are not messages of the layout";
    case SNAPSHOT_REFUSED_VALUE:
        return "a value came that cannot come now";
    case SNAPSHOT_REFUSED_FRAME:
        return "a frame is empty or too long";
    default:
        return "the call was refused";
    }
}

/* Reads so many bytes, in as many pieces as they come. Answers false where input ended before the first of them. */
static bool take(uint8_t *bytes, size_t count)
{
    size_t got = 0;
    while (got < count) {
        ssize_t piece = read(STDIN_FILENO, bytes + got, count - got);
        if (piece < 0 && errno == EINTR)
            continue;
        if (piece < 0)
            stop(BROKEN_INPUT, "input cannot be read");
        if (piece == 0 && got == 0)
            return false;
        if (piece == 0)
            stop(BROKEN_INPUT, "input ended within a command");
        got += (size_t)piece;
    }
    return true;
}

/* Reads so many bytes of a command that has begun. */
static void take_rest(uint8_t *bytes, size_t count)
{
    if (count > 0 && !take(bytes, count))
        stop(BROKEN_INPUT, "input ended within a command");
}

/* Writes all these bytes, in as many pieces as they are taken. */
static void give(const uint8_t *bytes, size_t count)
{
    while (count > 0) {
        ssize_t piece = write(STDOUT_FILENO, bytes, count);
        if (piece < 0 && errno == EINTR)
            continue;
        if (piece <= 0)
            stop(NO_OUTPUT, "output cannot be written");
        bytes += piece;
        count -= (size_t)piece;
    }
}

/* Writes the messages in out in their order, each after its head. `sender` is the frame's; a begin has none. */
static void send_output(uint8_t sender)
{
    size_t count = 0;
    for (size_t at = 0; at < length; at += count) {
        uint8_t route = SNAPSHOT_TO_ALL;
        if (snapshot_next(n, out + at, length - at, &count, &route) != SNAPSHOT_TAKEN)
            stop(NO_OUTPUT, "the output is not a row of messages");
        uint8_t message[HEAD + SNAPSHOT_LONGEST];
        message[0] = route == SNAPSHOT_TO_SENDER ? sender : 0;
        message[1] = (uint8_t)(count >> 8);
        message[2] = (uint8_t)(count & 0xff);
        memcpy(message + HEAD, out + at, count);
        give(message, HEAD + count);
    }
}

static void finish_begin(uint8_t code)
{
    if (snapshot_is_refusal(code))
        fprintf(stderr, "refused: %s\n", reason(code));
    else
        send_output(0);
}

static void begin_update(void)
{
    uint8_t report[SNAPSHOT_REPORT];
    take_rest(report, sizeof report);
    finish_begin(snapshot_node_begin_update(record, sizeof record, report, out, sizeof out, &length));
}

static void begin_scan(void)
{
    finish_begin(snapshot_node_begin_scan(record, sizeof record, out, sizeof out, &length));
}

static void messages(void)
{
    uint8_t head[HEAD], frame[SNAPSHOT_FRAME];
    take_rest(head, sizeof head);
    size_t count = (size_t)head[1] << 8 | head[2];
    if (count > sizeof frame)
        stop(BROKEN_INPUT, "no frame is so long");
    take_rest(frame, count);
    uint8_t code = snapshot_node_frame(record, sizeof record, head[0], frame, count, out, sizeof out, &length, view);
    if (snapshot_is_refusal(code))
        stop(BROKEN_INPUT, reason(code));
    send_output(head[0]);
    if (code == SNAPSHOT_SPENT)
        fprintf(stderr, "spent: no tag is left for an update\n");
    if (snapshot_is_done(code))
        fprintf(stderr, "done\n");
    if (snapshot_is_scan(code)) {
        fprintf(stderr, "scan");
        print_view(stderr, n, view);
        fprintf(stderr, "\n");
    }
}

/* The number that a text of digits is; the largest, which nothing here takes, for any other text. */
static size_t number(const char *text)
{
    char *end = NULL;
    unsigned long value = *text >= '0' && *text <= '9' ? strtoul(text, &end, 10) : 0;
    return end != NULL && *end == '\0' ? value : SIZE_MAX;
}

int main(int argc, char **argv)
{
    n = argc == 4 ? number(argv[1]) : 0;
    size_t f = argc == 4 ? number(argv[2]) : 0, own = argc == 4 ? number(argv[3]) : 0;
    if (snapshot_node_fresh(n, f, own, record, sizeof record) != SNAPSHOT_TAKEN)
        stop(BAD_ARGUMENTS, "three numbers are asked: of cabinets, 1 to 16; of those that may stop, fewer than half; "
                            "and the own one, 1 to all");
#ifdef SIGPIPE
    signal(SIGPIPE, SIG_IGN); /* a pipe that nobody reads is output that cannot be written */
#endif
    for (uint8_t command; take(&command, 1);) {
        switch (command) {
        case 'u':
            begin_update();
            break;
        case 's':
            begin_scan();
            break;
        case 'm':
            messages();
            break;
        default:
            stop(BROKEN_INPUT, "no such command");
        }
    }
    return ENDED;
}
