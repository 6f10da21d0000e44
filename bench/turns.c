/* The turns of two drivers and one application by hand, over plain rings of two ports with one queue and one socket each: what
   `simulate` and `forward` can't be faster than without other turns. Nothing is checked, counted beyond the calls, or kept.

     turns rounds IN0 IN1 OUT0 OUT1      one thread; each worker makes one call a round, as in `simulate`
     turns threads IN0 IN1 OUT0 OUT1     a thread for each worker, as in `forward`: counts are acquired and released

   OUT0 gets the packets of IN1, and OUT1 those of IN0. Captures are little-endian, of packets that fit a frame. It prints the
   number of calls. The turns are those of xsk_turns/specs/Turns.antt and AppTurns.antt for the options of a command without any. */
#define _GNU_SOURCE
#include <fcntl.h>
#include <pthread.h>
#include <sched.h>
#include <stdatomic.h>
#include <stdbool.h>
#include <stdint.h>
#include <stdio.h>
#include <stdlib.h>
#include <string.h>
#include <sys/stat.h>
#include <unistd.h>

enum { FILE_HEADER = 24, RECORD = 16, CHUNK = 4096, RESERVED = 256, FRAMES = 256, POOL = FRAMES / 2, SIZE = 2048, BATCH = 32, LINE = 64 };

/* A descriptor as if_xdp.h has it. FILL and COMPLETION use its address alone. */
struct entry {
    uint64_t address;
    uint32_t length;
    uint32_t options;
};

/* A ring. The two counts are on lines of their own; beside each stands what its side last saw of the other's. */
struct ring {
    _Alignas(LINE) _Atomic uint32_t produced;
    uint32_t consumed_seen, reserved;
    _Alignas(LINE) _Atomic uint32_t consumed;
    uint32_t produced_seen, taken;
    _Alignas(LINE) struct entry entries[SIZE];
};

static struct ring fill[2], completion[2], rx[2], tx[2];
static _Alignas(LINE) _Atomic uint32_t cell[2];
static _Alignas(LINE) _Atomic uint32_t rx_done[2];
static _Alignas(LINE) _Atomic uint32_t tx_done;
static _Alignas(LINE) _Atomic uint32_t gone[2];
static _Alignas(CHUNK) uint8_t umem[FRAMES][CHUNK];

/* Whether a ring has places for so many entries, which then are reserved. */
static inline bool reserve(struct ring *ring, uint32_t count)
{
    if (SIZE - (ring->reserved - ring->consumed_seen) < count) {
        ring->consumed_seen = atomic_load_explicit(&ring->consumed, memory_order_acquire);
        if (SIZE - (ring->reserved - ring->consumed_seen) < count) return false;
    }
    ring->reserved += count;
    return true;
}

static inline void submit(struct ring *ring)
{
    atomic_store_explicit(&ring->produced, ring->reserved, memory_order_release);
}

/* How many entries, at most so many, stand in a ring from the first that wasn't taken on; they are taken. */
static inline uint32_t peek(struct ring *ring, uint32_t most)
{
    if (ring->produced_seen - ring->taken == 0) ring->produced_seen = atomic_load_explicit(&ring->produced, memory_order_acquire);
    uint32_t count = ring->produced_seen - ring->taken;
    if (count > most) count = most;
    ring->taken += count;
    return count;
}

static inline void release(struct ring *ring)
{
    atomic_store_explicit(&ring->consumed, ring->taken, memory_order_release);
}

static inline uint32_t look(_Atomic uint32_t *mark)
{
    return atomic_load_explicit(mark, memory_order_acquire);
}

static inline void swap(_Atomic uint32_t *mark, uint32_t value)
{
    atomic_exchange_explicit(mark, value, memory_order_acq_rel);
}

/* A text that is read or written, and how far. */
struct text {
    uint8_t *bytes;
    size_t size, at;
};

/* What a driver waits for: the reply of which call. */
enum at_driver { LOOK_CELL, PEEK_FILL, RELEASE_FILL, RESERVE_RX, SUBMIT_RX, SET_RX_DONE, PEEK_TX, RELEASE_TX, RESERVE_COMPLETION, SUBMIT_COMPLETION, LOOK_TX_DONE, SET_GONE, DRIVER_ENDED };

struct driver {
    _Alignas(LINE) enum at_driver at;
    int port;
    struct text in, out;
    uint64_t spare;
    bool has_spare, progress, full, knows_tx_done, told_rx_done;
    uint32_t peeked, completed, sent;
    uint64_t batch[BATCH];
    uint64_t calls;
};

static uint32_t length_of(const struct text *in)
{
    uint32_t length;
    memcpy(&length, in->bytes + in->at + 8, sizeof length);
    return length;
}

/* The first call of a turn: the next packet's cell, or that there is no further packet, or what stands on TX. */
static void begin_driver_turn(struct driver *me)
{
    me->progress = me->full = false;
    if (me->in.at < me->in.size) me->at = LOOK_CELL;
    else if (!me->told_rx_done) me->at = SET_RX_DONE;
    else me->at = me->completed < me->peeked ? RESERVE_COMPLETION : PEEK_TX;
}

static void transmit(struct driver *me)
{
    me->at = me->completed < me->peeked ? RESERVE_COMPLETION : PEEK_TX;
}

/* The packet is written into the spare frame, and the frame's descriptor onto RX. */
static void deliver(struct driver *me)
{
    struct ring *ring = &rx[me->port];
    uint32_t length = length_of(&me->in);
    memcpy(umem[me->spare] + RESERVED, me->in.bytes + me->in.at + RECORD, length);
    ring->entries[(ring->reserved - 1) % SIZE] = (struct entry){ me->spare * CHUNK + RESERVED, length, 0 };
    submit(ring);
    me->in.at += RECORD + length;
    me->has_spare = false;
}

/* What stands on TX is appended to the output, with a record's header. */
static void gather(struct driver *me)
{
    struct ring *ring = &tx[me->port];
    for (uint32_t i = 0; i < me->peeked; i++) {
        struct entry *entry = &ring->entries[(ring->taken - me->peeked + i) % SIZE];
        uint8_t *to = me->out.bytes + me->out.at;
        uint32_t header[4] = { me->sent / 1000000, me->sent % 1000000, entry->length, entry->length };
        me->sent++;
        memcpy(to, header, RECORD);
        memcpy(to + RECORD, umem[0] + entry->address, entry->length);
        me->out.at += RECORD + entry->length;
        me->batch[i] = entry->address;
    }
    me->completed = 0;
}

static void end_driver_turn(struct driver *me)
{
    if (me->progress || me->full) begin_driver_turn(me);
    else if (me->knows_tx_done) me->at = SET_GONE;
    else if (me->told_rx_done) me->at = LOOK_TX_DONE;
    else begin_driver_turn(me);
}

/* One call of a driver. */
static void step_driver(struct driver *me)
{
    me->calls++;
    switch (me->at) {
    case LOOK_CELL:
        look(&cell[me->port]);
        me->at = me->has_spare ? RESERVE_RX : PEEK_FILL;
        break;
    case PEEK_FILL:
        if (peek(&fill[me->port], 1) == 0) transmit(me);
        else {
            me->spare = fill[me->port].entries[(fill[me->port].taken - 1) % SIZE].address / CHUNK;
            me->has_spare = true;
            me->at = RELEASE_FILL;
        }
        break;
    case RELEASE_FILL:
        release(&fill[me->port]);
        me->progress = true;
        me->at = RESERVE_RX;
        break;
    case RESERVE_RX:
        if (reserve(&rx[me->port], 1)) me->at = SUBMIT_RX;
        else {
            me->full = true;
            transmit(me);
        }
        break;
    case SUBMIT_RX:
        deliver(me);
        me->progress = true;
        transmit(me);
        break;
    case SET_RX_DONE:
        swap(&rx_done[me->port], 1);
        me->told_rx_done = me->progress = true;
        transmit(me);
        break;
    case PEEK_TX:
        me->peeked = peek(&tx[me->port], BATCH);
        me->completed = me->peeked;
        if (me->peeked == 0) end_driver_turn(me);
        else me->at = RELEASE_TX;
        break;
    case RELEASE_TX:
        gather(me);
        release(&tx[me->port]);
        me->progress = true;
        me->at = RESERVE_COMPLETION;
        break;
    case RESERVE_COMPLETION:
        if (reserve(&completion[me->port], 1)) me->at = SUBMIT_COMPLETION;
        else {
            me->full = true;
            end_driver_turn(me);
        }
        break;
    case SUBMIT_COMPLETION:
        completion[me->port].entries[(completion[me->port].reserved - 1) % SIZE].address = me->batch[me->completed++];
        submit(&completion[me->port]);
        me->progress = true;
        if (me->completed < me->peeked) me->at = RESERVE_COMPLETION;
        else end_driver_turn(me);
        break;
    case LOOK_TX_DONE:
        me->knows_tx_done = look(&tx_done) == 1;
        begin_driver_turn(me);
        break;
    case SET_GONE:
        swap(&gone[me->port], 1);
        me->at = DRIVER_ENDED;
        break;
    case DRIVER_ENDED:
        me->calls--;
        break;
    }
}

enum at_application { PEEK_RX, RELEASE_RX, RESERVE_TX, SUBMIT_TX, PEEK_COMPLETION, RELEASE_COMPLETION, RESERVE_FILL, SUBMIT_FILL, LOOK_RX_DONE, SET_TX_DONE, LOOK_GONE, APPLICATION_ENDED };

struct application {
    _Alignas(LINE) enum at_application at;
    int side;
    bool seen[2], is_gone[2], noted_seen, noted_gone, lanes_empty, sides_empty, told_tx_done;
    uint32_t pending[2], back[2], given[2], group;
    struct entry lanes[2][BATCH];
    uint64_t frames[2][BATCH];
    uint64_t calls;
};

/* A visit to a lane, or behind the last of them to the first side. */
static void visit_lane(struct application *me, int side)
{
    me->side = side;
    me->at = me->pending[side] ? RESERVE_TX : PEEK_RX;
    if (me->pending[side]) me->lanes_empty = false;
}

static void visit_side(struct application *me, int side)
{
    me->side = side;
    me->at = me->back[side] ? RESERVE_FILL : PEEK_COMPLETION;
    if (me->back[side]) me->sides_empty = false;
}

static void begin_application_turn(struct application *me)
{
    me->noted_seen = me->seen[0] && me->seen[1];
    me->noted_gone = me->is_gone[0] && me->is_gone[1];
    me->lanes_empty = me->sides_empty = true;
    if (me->told_tx_done) visit_side(me, 0);
    else visit_lane(me, 0);
}

static void next_lane(struct application *me)
{
    if (me->side == 0) visit_lane(me, 1);
    else visit_side(me, 0);
}

/* The next mark that isn't known to be set, from a side on, or a new turn. */
static void look_from(struct application *me, const bool *known, enum at_application at, int side)
{
    while (side < 2 && known[side]) side++;
    me->side = side;
    if (side < 2) me->at = at;
    else begin_application_turn(me);
}

static void end_application_turn(struct application *me)
{
    if (me->told_tx_done) {
        if (me->noted_gone && me->sides_empty && me->back[0] == 0 && me->back[1] == 0) me->at = APPLICATION_ENDED;
        else look_from(me, me->is_gone, LOOK_GONE, 0);
    } else if (me->seen[0] && me->seen[1]) {
        if (me->noted_seen && me->lanes_empty) me->at = SET_TX_DONE;
        else begin_application_turn(me);
    } else look_from(me, me->seen, LOOK_RX_DONE, 0);
}

static void next_side(struct application *me)
{
    if (me->side == 0) visit_side(me, 1);
    else end_application_turn(me);
}

/* How many of a side's frames, from the first on, have its home. */
static uint32_t group_of(const struct application *me)
{
    const uint64_t *frames = me->frames[me->side] + me->given[me->side];
    uint32_t count = 1;
    while (count < me->back[me->side] && frames[count] / POOL == frames[0] / POOL) count++;
    return count;
}

static struct ring *home_of(const struct application *me)
{
    return &fill[me->frames[me->side][me->given[me->side]] / POOL];
}

static void submit_tx(struct application *me)
{
    struct ring *ring = &tx[1 - me->side];
    uint32_t count = me->pending[me->side];
    for (uint32_t i = 0; i < count; i++) ring->entries[(ring->reserved - count + i) % SIZE] = me->lanes[me->side][i];
    submit(ring);
    me->pending[me->side] = 0;
}

static void submit_fill(struct application *me)
{
    struct ring *ring = home_of(me);
    for (uint32_t i = 0; i < me->group; i++) ring->entries[(ring->reserved - me->group + i) % SIZE].address = me->frames[me->side][me->given[me->side] + i] * CHUNK;
    submit(ring);
    me->given[me->side] += me->group;
    me->back[me->side] -= me->group;
}

/* One call of the application. */
static void step_application(struct application *me)
{
    int side = me->side;
    me->calls++;
    switch (me->at) {
    case PEEK_RX:
        me->pending[side] = peek(&rx[side], BATCH);
        if (me->pending[side] == 0) next_lane(me);
        else {
            me->lanes_empty = false;
            for (uint32_t i = 0; i < me->pending[side]; i++) me->lanes[side][i] = rx[side].entries[(rx[side].taken - me->pending[side] + i) % SIZE];
            me->at = RELEASE_RX;
        }
        break;
    case RELEASE_RX:
        release(&rx[side]);
        me->at = RESERVE_TX;
        break;
    case RESERVE_TX:
        if (reserve(&tx[1 - side], me->pending[side])) me->at = SUBMIT_TX;
        else next_lane(me);
        break;
    case SUBMIT_TX:
        submit_tx(me);
        next_lane(me);
        break;
    case PEEK_COMPLETION:
        me->back[side] = peek(&completion[side], BATCH);
        me->given[side] = 0;
        if (me->back[side] == 0) next_side(me);
        else {
            me->sides_empty = false;
            for (uint32_t i = 0; i < me->back[side]; i++) me->frames[side][i] = completion[side].entries[(completion[side].taken - me->back[side] + i) % SIZE].address / CHUNK;
            me->at = RELEASE_COMPLETION;
        }
        break;
    case RELEASE_COMPLETION:
        release(&completion[side]);
        me->at = RESERVE_FILL;
        break;
    case RESERVE_FILL:
        me->group = group_of(me);
        if (reserve(home_of(me), me->group)) me->at = SUBMIT_FILL;
        else next_side(me);
        break;
    case SUBMIT_FILL:
        submit_fill(me);
        if (me->back[side]) me->at = RESERVE_FILL;
        else next_side(me);
        break;
    case LOOK_RX_DONE:
        me->seen[side] = look(&rx_done[side]) == 1;
        look_from(me, me->seen, LOOK_RX_DONE, side + 1);
        break;
    case SET_TX_DONE:
        swap(&tx_done, 1);
        me->told_tx_done = true;
        begin_application_turn(me);
        break;
    case LOOK_GONE:
        me->is_gone[side] = look(&gone[side]) == 1;
        look_from(me, me->is_gone, LOOK_GONE, side + 1);
        break;
    case APPLICATION_ENDED:
        me->calls--;
        break;
    }
}

static struct driver drivers[2];
static struct application application;

static void in_rounds(void)
{
    while (drivers[0].at != DRIVER_ENDED || drivers[1].at != DRIVER_ENDED || application.at != APPLICATION_ENDED) {
        step_driver(&drivers[0]);
        step_driver(&drivers[1]);
        step_application(&application);
    }
}

/* A worker that has begun so many turns without anything moved gives its processor away. */
static void *run_driver(void *given)
{
    struct driver *me = given;
    for (uint32_t idle = 0; me->at != DRIVER_ENDED;) {
        bool polls = me->at == PEEK_TX;
        step_driver(me);
        if (polls && me->at != RELEASE_TX && !me->progress) {
            if (++idle % 64 == 0) sched_yield();
        } else if (me->progress) idle = 0;
    }
    return NULL;
}

static void *run_application(void *given)
{
    struct application *me = given;
    for (uint32_t idle = 0; me->at != APPLICATION_ENDED;) {
        bool polls = me->at == PEEK_COMPLETION && me->side == 1;
        step_application(me);
        if (polls && me->lanes_empty && me->sides_empty) {
            if (++idle % 64 == 0) sched_yield();
        } else if (polls) idle = 0;
    }
    return NULL;
}

static void in_threads(void)
{
    pthread_t threads[2];
    for (int port = 0; port < 2; port++)
        if (pthread_create(&threads[port], NULL, run_driver, &drivers[port])) exit(1);
    run_application(&application);
    for (int port = 0; port < 2; port++) pthread_join(threads[port], NULL);
}

static void read_whole(const char *name, struct text *text)
{
    struct stat told;
    int in = open(name, O_RDONLY);
    if (in < 0 || fstat(in, &told) < 0) exit(1);
    text->size = (size_t)told.st_size;
    text->bytes = malloc(text->size);
    for (size_t at = 0; at < text->size;) {
        ssize_t got = text->bytes ? read(in, text->bytes + at, text->size - at) : -1;
        if (got <= 0) exit(1);
        at += (size_t)got;
    }
    close(in);
}

static void write_whole(const char *name, const struct text *text)
{
    int out = open(name, O_WRONLY | O_CREAT | O_TRUNC, 0666);
    if (out < 0 || write(out, text->bytes, text->at) != (ssize_t)text->at) exit(1);
    close(out);
}

int main(int count, char **words)
{
    if (count != 6) return 2;
    for (int port = 0; port < 2; port++) {
        read_whole(words[2 + port], &drivers[port].in);
        drivers[port].port = port;
        drivers[port].in.at = FILE_HEADER;
        atomic_init(&cell[port], (uint32_t)port + 1);
        for (int number = 0; number < POOL; number++) fill[port].entries[number].address = (uint64_t)(port * POOL + number) * CHUNK;
        fill[port].reserved = POOL;
        submit(&fill[port]);
    }
    for (int port = 0; port < 2; port++) {
        struct text *out = &drivers[port].out;
        out->bytes = malloc(drivers[1 - port].in.size);
        if (!out->bytes) return 1;
        memcpy(out->bytes, drivers[1 - port].in.bytes, FILE_HEADER);
        out->at = FILE_HEADER;
        begin_driver_turn(&drivers[port]);
    }
    begin_application_turn(&application);
    if (strcmp(words[1], "rounds") == 0) in_rounds();
    else in_threads();
    for (int port = 0; port < 2; port++) write_whole(words[4 + port], &drivers[port].out);
    printf("calls %llu\n", (unsigned long long)(drivers[0].calls + drivers[1].calls + application.calls));
    return 0;
}
