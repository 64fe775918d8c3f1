/* The exchange of a device in plain C with the same four calls as the library, for bench/figures/library.py: what the counts of the
 * library are compared with. It does what the library does of an exchange: it judges a cyclic frame, keeps its data, counts the timers of
 * the relation and of an alarm, and writes the frame that is due. As the library, it remembers for how many units nothing is due, and takes
 * these at once. It has a relation from the start, with the octets of data of its station, and no flash, no DCP and no calls; of other
 * frames it says that they are not its own. */
#include "nandutable.h"

enum { DATA = 1440, FRAMES = 4, TAG = 0xC000, INPUT_ID = 0xC001, OUTPUT_ID = 0xC000, ALARM_UNITS = 3200 };

struct frame {
    uint32_t length;
    uint8_t octets[PN_FRAME_SIZE];
};

struct device {
    uint8_t mac[6];
    uint8_t partner[6];
    uint32_t lamp;
    uint32_t phase;
    uint16_t units;
    uint32_t data; /* octets of data of a frame */
    uint32_t interval;
    uint32_t until_sent;
    uint32_t hold;
    uint32_t until_held;
    int has_counter;
    uint16_t counter;
    int is_alarm_sent;
    uint32_t alarm_since;
    uint32_t quiet; /* units with which nothing is due */
    uint8_t inputs[DATA];
    uint8_t outputs[DATA];
    struct frame frames[FRAMES];
    uint32_t frames_used;
    uint32_t frames_past;
};

static uint16_t word(const uint8_t *octets)
{
    return (uint16_t)(octets[0] << 8 | octets[1]);
}

static void put_word(uint8_t *octets, uint32_t value)
{
    octets[0] = (uint8_t)(value >> 8);
    octets[1] = (uint8_t)value;
}

uint32_t pn_judge(size_t size, uint32_t abi, size_t op_size, const pn_station *station)
{
    (void)station;
    if (abi != PN_ABI || op_size != PN_OP_LENGTH)
        return PN_BAD_ABI;
    return size < PN_DEVICE_SIZE ? PN_SMALL_ROOM : PN_OK;
}

/* The interval is OrderID's first four octets, so that the header's station says it. */
void pn_put(void *room, const pn_station *station)
{
    static const uint8_t partner[6] = {2, 0, 0, 0, 0, 2};
    struct device *device = room;
    memset(device, 0, sizeof *device);
    memcpy(device->mac, station->mac, 6);
    memcpy(device->partner, partner, 6);
    device->data = station->modules[1].submodules[0].input + 3u;
    memcpy(&device->interval, station->order_id, 4);
    device->until_sent = device->interval;
    device->hold = device->until_held = 7680 * device->interval;
    device->inputs[0] = device->inputs[device->data - 2] = device->inputs[device->data - 1] = 0x80;
}

/* --- A frame comes --- */

static int is_newer(const struct device *device, uint16_t counter)
{
    uint16_t ahead = (uint16_t)(counter - device->counter);
    return !device->has_counter || (ahead >= 1 && ahead <= 61440);
}

static uint32_t hear_cyclic(struct device *device, int is_partners, const uint8_t *body, size_t length)
{
    const uint8_t *tail = body + device->data;
    if (device->phase == PN_NONE || !is_partners)
        return PN_NO_RELATION;
    if (length < device->data + 4u)
        return PN_FAULT;
    if ((tail[2] & 4) == 0 || tail[3] != 0 || !is_newer(device, word(tail)))
        return PN_STALE_CYCLE;
    device->has_counter = 1;
    device->counter = word(tail);
    memcpy(device->outputs, body, device->data);
    device->until_held = device->hold;
    return PN_DONE;
}

static uint32_t hear(struct device *device, const uint8_t *octets, size_t length)
{
    size_t head = length >= 18 && octets[12] == 0x81 && octets[13] == 0 ? 18 : 14;
    uint16_t id;
    if (length < head + 2 || length > head + 1500)
        return PN_FAULT;
    if (octets[head - 2] != 0x88 || octets[head - 1] != 0x92 || memcmp(octets, device->mac, 6) != 0)
        return PN_NOT_MINE;
    id = word(octets + head);
    if (id < 0x8000 || (id > 0xBBFF && id < 0xC000) || id > 0xF7FF)
        return PN_NOT_MINE;
    return hear_cyclic(device, memcmp(octets + 6, device->partner, 6) == 0 && id == OUTPUT_ID, octets + head + 2, length - head - 2);
}

/* --- Time passes --- */

static void send_inputs(struct device *device)
{
    struct frame *frame = &device->frames[device->frames_used++];
    uint8_t *octets = frame->octets;
    memcpy(octets, device->partner, 6);
    memcpy(octets + 6, device->mac, 6);
    put_word(octets + 12, 0x8100);
    put_word(octets + 14, TAG);
    put_word(octets + 16, 0x8892);
    put_word(octets + 18, INPUT_ID);
    memcpy(octets + 20, device->inputs, device->data);
    put_word(octets + 20 + device->data, device->units);
    octets[22 + device->data] = 0x35;
    octets[23 + device->data] = 0;
    frame->length = 24 + device->data;
    if (frame->length < 60) {
        memset(octets + frame->length, 0, 60 - frame->length);
        frame->length = 60;
    }
}

static void tick(struct device *device)
{
    device->units++;
    if (device->lamp != 0)
        device->lamp--;
    if (device->phase == PN_NONE)
        return;
    if (--device->until_held == 0) {
        device->phase = PN_NONE;
        return;
    }
    if (device->is_alarm_sent && ++device->alarm_since == ALARM_UNITS)
        device->alarm_since = 0;
    if (--device->until_sent == 0) {
        device->until_sent = device->interval;
        send_inputs(device);
    }
}

/* Units until something is due, that one included. */
static uint32_t due(const struct device *device)
{
    uint32_t least = UINT32_MAX;
    if (device->phase == PN_NONE)
        return least;
    least = device->until_sent < device->until_held ? device->until_sent : device->until_held;
    if (device->is_alarm_sent && ALARM_UNITS - device->alarm_since < least)
        least = ALARM_UNITS - device->alarm_since;
    return least;
}

/* Units with which nothing is due, at once. */
static void leap(struct device *device, uint32_t units)
{
    device->units = (uint16_t)(device->units + units);
    device->lamp -= device->lamp < units ? device->lamp : units;
    device->quiet -= units;
    if (device->phase == PN_NONE)
        return;
    device->until_held -= units;
    device->until_sent -= units;
    if (device->is_alarm_sent)
        device->alarm_since += units;
}

/* What is due is counted again after the units with which something was due; a frame only puts it off. */
static uint32_t pass(struct device *device, uint32_t units)
{
    while (units != 0 && device->frames_past == device->frames_used) {
        uint32_t quiet = units < device->quiet ? units : device->quiet;
        if (quiet != 0)
            leap(device, quiet);
        units -= quiet;
        if (units != 0) {
            tick(device);
            units--;
            device->quiet = due(device) - 1;
        }
    }
    return units;
}

static uint32_t waiting(const struct device *device)
{
    return device->frames_past < device->frames_used ? (uint32_t)PN_SEND : (uint32_t)PN_NOTHING;
}

/* The next frame, which is not copied. */
void pn_fetch(void *room, pn_op *op, uint32_t *answer, const uint8_t **octets)
{
    struct device *device = room;
    op->work = waiting(device);
    op->length = 0;
    *octets = NULL;
    if (op->work == PN_SEND) {
        const struct frame *frame = &device->frames[device->frames_past++];
        op->length = frame->length;
        *octets = frame->octets;
    }
    op->more = waiting(device);
    *answer = PN_OK;
}

static uint32_t input(struct device *device, pn_op *op, const uint8_t *given, size_t length)
{
    if (length != device->data - 3) {
        op->reason = PN_WHY_BAD_LENGTH;
        return PN_REFUSED;
    }
    memcpy(device->inputs + 1, given, length);
    op->note = PN_DONE;
    op->work = waiting(device);
    return PN_OK;
}

/* The output of slot 2: zeros if its IOPS is not good. */
static uint32_t output(const struct device *device, pn_op *op)
{
    uint32_t length = device->data - 3;
    if (op->slot != 2 || op->subslot != 1)
        return PN_NO_SLOT;
    if (device->outputs[length] == PN_IOPS_GOOD)
        memcpy(op->octets, device->outputs, length);
    else
        memset(op->octets, 0, length);
    op->length = length;
    return PN_OK;
}

uint32_t pn_step(void *room, pn_op *op, const uint8_t *given, size_t length)
{
    struct device *device = room;
    if (device->frames_past < device->frames_used)
        return PN_HAS_WORK;
    device->frames_used = device->frames_past = 0;
    switch (op->what) {
    case PN_OP_SECTOR: return PN_OK;
    case PN_OP_BOOT: device->phase = PN_EXCHANGING; return PN_OK;
    case PN_OP_FRAME: op->note = hear(device, given, length); break;
    case PN_OP_TICK: op->units = pass(device, op->units); op->due = due(device); op->note = PN_DONE; break;
    case PN_OP_INPUT: return input(device, op, given, length);
    case PN_OP_OUTPUT: return output(device, op);
    case PN_OP_STATE: op->phase = device->phase, op->lamp = device->lamp; return PN_OK;
    case PN_OP_DUE: op->due = due(device); return PN_OK;
    default: return PN_UNKNOWN;
    }
    op->work = waiting(device);
    return PN_OK;
}
