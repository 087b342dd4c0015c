/* Noon at the gateway: a camera and sixty loggers share one link, all of them with packets waiting all the time.
 * Prints what they got beside what they booked: a part of the bytes charged, the packets' own and the headers'.
 *
 * Build and run, in the repository's folder, once `tools/library` has made the library:
 *   gcc -O2 -Iinclude examples/noon.c target/library/libuplink.a -o target/noon && target/noon
 */
#include <inttypes.h>
#include <stdio.h>
#include <stdlib.h>
#include "uplink.h"

enum { FLOWS = 61, CAMERA = 0, DEEP = 8, PUSH_BACK = 48, PICKS = 200000 };
enum { HEADER = 12 }; /* bytes that the radio sends with each packet */

/* What the caller keeps between calls, and where a pick's reply comes. */
static uint64_t record[UPLINK_RECORD_WORDS], reply[UPLINK_REPLY_WORDS];
static uint16_t lengths[UPLINK_PLACES];
static uint32_t handles[UPLINK_PLACES];
static uint32_t shares[FLOWS], largest[FLOWS];
/* What each flow and all of them got: bytes charged, and the packets' own. */
static uint64_t charged[FLOWS], own[FLOWS], all_charged, all_own, leaps, pushed_back;

/* A call that should have been done was refused: the number says why. */
static void must(const char *call, uint64_t answer)
{
    if (answer == UPLINK_DONE)
        return;
    fprintf(stderr, "%s refused: %" PRIu32 ", flow %" PRIu32 "\n", call, uplink_number(answer), uplink_flow(answer));
    exit(1);
}

static void arrive(uint32_t flow, uint32_t handle)
{
    must("arrival", uplink_arrival(flow, largest[flow], handle, record, UPLINK_RECORD_WORDS, lengths, UPLINK_PLACES,
                                   handles, UPLINK_PLACES));
}

/* How many packets wait in the flow. */
static uint64_t waiting(uint32_t flow)
{
    uint64_t depth[UPLINK_DEPTH_WORDS];

    must("depth", uplink_depth(flow, record, UPLINK_RECORD_WORDS, depth, UPLINK_DEPTH_WORDS));
    return depth[UPLINK_DEPTH_WAITING];
}

/* Sends a packet; its flow brings in another. The camera brings in two: before its 64 places are full, the gateway
 * tells it to wait. */
static void send_one(uint32_t handle)
{
    uint32_t flow;

    must("pick", uplink_pick(record, UPLINK_RECORD_WORDS, lengths, UPLINK_PLACES, handles, UPLINK_PLACES, reply,
                             UPLINK_REPLY_WORDS));
    flow = (uint32_t)reply[UPLINK_REPLY_FLOW];
    own[flow] += reply[UPLINK_REPLY_LENGTH];
    all_own += reply[UPLINK_REPLY_LENGTH];
    charged[flow] += reply[UPLINK_REPLY_LENGTH] + HEADER;
    all_charged += reply[UPLINK_REPLY_LENGTH] + HEADER;
    leaps += reply[UPLINK_REPLY_LEAPT];
    arrive(flow, handle);
    if (flow == CAMERA && waiting(CAMERA) < PUSH_BACK)
        arrive(CAMERA, PICKS + handle);
    else if (flow == CAMERA)
        pushed_back++;
}

/* A row: bytes, and in thousandths of what all flows got. */
static void show(const char *name, int booked, uint64_t part_charged, uint64_t part_own)
{
    printf("%-10s %6d %10" PRIu64 " %11.1f %10" PRIu64 " %11.1f\n", name, booked,
           part_charged, 1000 * (double)part_charged / (double)all_charged,
           part_own, 1000 * (double)part_own / (double)all_own);
}

int main(void)
{
    for (uint32_t f = 0; f < FLOWS; f++) {
        shares[f] = f == CAMERA ? 700 : 5;
        largest[f] = f == CAMERA ? 1500 : 64;
    }
    must("opening", uplink_opening(shares, FLOWS, largest, FLOWS, HEADER, record, UPLINK_RECORD_WORDS,
                                   lengths, UPLINK_PLACES, handles, UPLINK_PLACES));
    /* The burst: every flow has packets waiting, and each that is sent is followed by another. */
    for (uint32_t f = 0; f < FLOWS; f++)
        for (uint32_t k = 0; k < DEEP; k++)
            arrive(f, k);
    for (uint32_t i = 0; i < PICKS; i++)
        send_one(DEEP + i);
    printf("%d picks, %" PRIu64 " leaps, %d bytes of header with each packet\n", PICKS, leaps, HEADER);
    printf("%10s %6s %10s %11s %10s %11s\n", "", "booked", "charged", "thousandths", "own bytes", "thousandths");
    show("camera", 700, charged[CAMERA], own[CAMERA]);
    show("60 loggers", 300, all_charged - charged[CAMERA], all_own - own[CAMERA]);
    show("logger 1", 5, charged[1], own[1]);
    show("logger 60", 5, charged[60], own[60]);
    printf("camera: %" PRIu64 " packets pushed back, at %" PRIu64 " waiting\n", pushed_back, waiting(CAMERA));
    return 0;
}
