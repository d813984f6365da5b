/* Document 01's session through the calls of a cluster: one node, an update, eleven deliveries of the node's messages
 * to itself, a scan, six deliveries. It prints what the bench program prints for sessions/document.txt. */
#include "print.h"
#include "snapshot.h"
#include <stdio.h>

#define NODES 1
#define FAULTS 0 /* so many may stop */

static uint8_t cluster[SNAPSHOT_CLUSTER(NODES)];
static uint8_t view[SNAPSHOT_VIEW];
static int events; /* how many there were */

/* Counts an event at node 1 and prints its ending or its refusal, if it has one. */
static void tell(uint8_t code)
{
    events++;
    if (code == SNAPSHOT_TAKEN)
        return;
    if (snapshot_is_refusal(code)) {
        printf("%d no %d", events, code);
    } else if (snapshot_is_scan(code)) {
        printf("%d scan 1", events);
        print_view(stdout, NODES, view);
    } else {
        printf("%d %s 1", events, snapshot_is_done(code) ? "done" : "spent");
    }
    printf("\n");
}

static void deliver(int times)
{
    for (int i = 0; i < times; i++)
        tell(snapshot_deliver(cluster, sizeof cluster, 1, 1, false, 0, view));
}

int main(void)
{
    static const uint8_t report[SNAPSHOT_REPORT] = {0, 1, 0, 2, 0, 3, 0, 4};
    if (snapshot_fresh(NODES, FAULTS, cluster, sizeof cluster) != SNAPSHOT_TAKEN)
        return 1;
    tell(snapshot_begin_update(cluster, sizeof cluster, 1, report, false, 0));
    deliver(11);
    tell(snapshot_begin_scan(cluster, sizeof cluster, 1, false, 0));
    deliver(6);
    return 0;
}
