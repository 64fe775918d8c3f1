/* nandutable: the controller of a station, and the plan that it follows.
 *
 * The controller finds the station of its plan by its name, sets its address, makes the relation, writes the records of the plan, and
 * exchanges data. It answers ARP requests for its address and echo requests (ping) itself, announces the address, and counts who else uses
 * it. It announces itself by LLDP to the station at the other end of its cable, and hears that one. Like the device it uses only the memory of the room that it is given, allocates none, calls nothing back and keeps no time of its
 * own. Call it from one thread at a time: a call while another one with the same controller runs returns PN_IN_CALL and changes nothing, as
 * nandutable.h says of a device.
 *
 *     static pn_plan plan;
 *     static pn_controller controller;
 *     static pn_op op;
 *     pn_plan_read(&plan, text, length);                       // from a catalogue in JSON; only this call allocates memory
 *     pn_controller_start(&controller, &plan, ar, activity);
 *     for (;;) {
 *         pn_controller_send(&controller, &op, &host);         // takes all frames; the first one waits from the start
 *         pn_controller_frame(&controller, &op, octets, length); // or pn_controller_tick, pn_controller_give, pn_controller_stop
 *     }
 *
 * The functions pn_tool_.. are for what a tool does before a controller starts: they give its name to the station that replaces a broken
 * one, and read records of any station.
 *
 * The functions of the controller and the tool are in libnandutable-controller.a, those that read a plan in libnandutable-plan.a. Both are proved
 * sources as plain Rust.
 *
 * Under the MIT licence or the Apache License 2.0, as you choose. */
#ifndef NANDUTABLE_CONTROLLER_H
#define NANDUTABLE_CONTROLLER_H

#include "nandutable.h"

#ifdef __cplusplus
extern "C" {
#endif

/* Octets of the room of a controller; its address is a multiple of 16. */
#define PN_CONTROLLER_SIZE 40960u
/* The maximum number of parameter records of a plan. */
#define PN_RECORDS 32u
/* The maximum number of diagnoses in the list of a controller. */
#define PN_DIAGNOSES 256u

/* The state of a controller (pn_op.phase). */
enum pn_controller_phase {
    PN_LOOKING = 1,       /* looks for the station, by its name */
    PN_ADDRESSING = 2,    /* sets its IP suite */
    PN_CONNECTING = 3,    /* asks for the relation */
    PN_WRITING = 4,       /* writes the records of the plan */
    PN_ENDING = 5,        /* ends the parameters, by PrmEnd */
    PN_WAITING = 6,       /* waits for ApplicationReady */
    PN_DATA_EXCHANGE = 7, /* exchanges data */
    PN_ENDED = 8          /* has ended; pn_op.cause says why */
};

/* Why a controller ended (pn_op.cause). */
enum pn_cause {
    PN_WRONG_DEVICE = 1,  /* the station has another VendorID or DeviceID */
    PN_WAS_REFUSED = 2,   /* the device refused a request */
    PN_MODULE_DIFF = 3,   /* the plugged modules are not those that the plan expects */
    PN_DATA_HOLD = 4,     /* no cyclic frame arrived within the data hold time */
    PN_ABORTED = 5,       /* the device ended the relation */
    PN_ALARM_RETRIES = 6, /* the device did not acknowledge an AlarmAck */
    PN_STOPPED = 7,       /* pn_controller_stop */
    PN_NO_PROGRESS = 8    /* a state lasted as long as its patience (patience, waiting_patience of pn_plan) */
};

/* What a controller knows of a place of its plan (pn_controller_place). */
enum pn_known {
    PN_KNOWN_THERE = 1,   /* the submodule is there, from the start or again */
    PN_KNOWN_DIFFERS = 2, /* the ModuleDiffBlock of the answer to the Connect listed it */
    PN_KNOWN_GONE = 3,    /* it was pulled */
    PN_KNOWN_WRONG = 4,   /* another submodule was plugged */
    PN_KNOWN_PLUGGED = 5, /* a submodule was plugged again; with parameters_after_plug its records wait or are written */
    PN_KNOWN_ENDING = 6,  /* its records were written: the device must say that it is ready */
    PN_KNOWN_REFUSED = 7  /* the device refused a record or the end of the parameters (pn_controller_refusal) */
};

/* A parameter record that the controller writes at start-up. The submodule in this slot and subslot must accept it (its `parameters`), with
 * the same index and exactly its length, 1 to 64 octets. No record may be written to the access point, in slot 0. */
typedef struct pn_record {
    uint16_t slot;
    uint16_t subslot;
    uint16_t index;
    uint16_t length;
    uint8_t octets[64];
} pn_record;

/* What a controller says of itself to tools by DCP (Identity). */
typedef struct pn_identity {
    uint16_t vendor_id;
    uint16_t device_id;
    uint32_t station_type_length; /* 0: tools do not see the controller; else 1 to 25 */
    uint8_t station_type[28];     /* DeviceVendorValue (DNS_CompatibleName): octets from 0x20 to 0x7E */
} pn_identity;

/* The plan of a station. pn_plan_read makes it from a catalogue. A host that writes it itself must keep the same rules, which
 * pn_controller_start checks. In addition to those at the fields:
 * - Both names are station names, and not empty.
 * - Address, mask and gateway are all zeros, or the address is one of a host (its first octet 1 to 126 or 128 to 223) and the mask is
 *   ones followed by zeros. The controller's address is one of a host, and its MAC address one of a single station (its first octet is
 *   even).
 * - The first module is the access point, in slot 0. The others follow in the order of their slots, at most 15, each slot once. The ident
 *   of a module is not 0.
 * - The submodules of a module are in the order of their subslots, 1 to 36,863, each once. The indexes of their parameter records are
 *   distinct, 0 to 32,767; their lengths are from 1 to 64.
 * - The data of all submodules fits a cyclic frame in each direction, and all modules fit a Connect. */
typedef struct pn_plan {
    uint8_t name[240];            /* NameOfStation of the device */
    uint8_t controller_name[240]; /* NameOfStation of the controller */
    uint32_t name_length;
    uint32_t controller_name_length;
    uint8_t address[4]; /* the IP suite that the controller sets at the device */
    uint8_t mask[4];
    uint8_t gateway[4];
    uint8_t controller_address[4]; /* the address of a host */
    uint8_t controller_mac[6];     /* the first octet is even */
    uint16_t vendor_id;
    uint16_t device_id;
    uint16_t send_clock_factor; /* 1 to 128, in units of PN_UNIT_NS */
    uint16_t reduction_ratio;   /* 1 to 512: send_clock_factor times this is the interval of cyclic frames */
    uint16_t data_hold_factor;  /* 1 to 7,680 intervals */
    uint32_t station_type_length; /* if more than 25: too long for a device, and station_type is empty */
    uint8_t station_type[28];     /* DeviceVendorValue */
    uint32_t module_count;        /* 1 to PN_MODULES, in the order of the slots, from slot 0 on */
    uint32_t record_count;        /* at most PN_RECORDS, in the order in which they are written */
    pn_module modules[PN_MODULES];
    pn_record records[PN_RECORDS];
    uint32_t continue_on_refused_record; /* not 0: the start-up goes on after a record that the device refused */
    uint32_t multiple_write;             /* not 0: a Write of the start-up carries several records; only if the device supports it */
    uint32_t release_on_refused_record;  /* not 0: the controller releases the relation when it ends after a record that the device refused */
    uint32_t patience;         /* not of a catalogue: for how many units (PN_UNIT_NS) a state of the start-up lasts at most; 0: no limit */
    uint32_t waiting_patience; /* the same for the state in which the controller waits for the ApplicationReady */
    uint32_t parameters_after_plug; /* not 0: the controller writes the records of a submodule again after it was plugged (ParametersAfterPlug) */
    /* not 0 (PersistentStart): the controller sends a Release when its Connect is refused with State conflict, and tries a Write of the start-up, or
     * PrmEnd, that is refused as busy (ErrorDecode 0x80, ErrorCode1 0xC2) again each second, within the patience */
    uint32_t persistent_start;
    pn_identity identity; /* with a type of station the controller is a DCP station in every state: it answers Identify and Get, and refuses each Set */
} pn_plan;

/* The neighbour of a controller by LLDP: the texts of its PortID and its ChassisID (a MAC address as `02-00-00-00-00-01`), and the MAC
 * address of its chassis. */
typedef struct pn_neighbour {
    uint8_t mac[6];
    uint16_t port_length;    /* at most 255 */
    uint16_t chassis_length; /* at most 255 */
    uint8_t port[255];
    uint8_t chassis[255];
} pn_neighbour;

/* Who works as a tool: its MAC address and its IP address, to which stations answer, and the number of its last request by DCP. Each request,
 * a search and a Set, has a number of its own, so that no answer to another one counts: the library gives it the next one. Begin with a random
 * number (a controller uses 1 and 2), and use one tool for all requests. */
typedef struct pn_tool {
    uint8_t mac[6];
    uint8_t address[4]; /* only pn_tool_read and pn_tool_record read it */
    uint32_t xid;       /* Xid of the last Identify or Set */
} pn_tool;

/* Which stations answered to a name by the place. pn_tool_ask writes all of it. */
typedef struct pn_search {
    uint32_t stations;  /* how many answered: 0, 1, or 2 for more than one */
    uint32_t is_told;   /* 1: the answer of the first one has its name, else 0 */
    uint32_t length;    /* the octets of that name, at most 240; 0: the station has no name, or its answer has none */
    uint32_t xid;       /* Xid of the Identify: only answers with this number count */
    uint8_t first[6];   /* the MAC address of the first one */
    uint8_t other[6];   /* that of another one, if more than one answered */
    uint8_t name[240];
} pn_search;

/* The station whose record a tool reads. */
typedef struct pn_target {
    uint8_t mac[6];
    uint8_t address[4];
    uint16_t vendor_id;
    uint16_t device_id;
} pn_target;

/* The memory of a controller. Only the library and the functions below use its contents. */
typedef struct pn_controller {
#if defined(__cplusplus)
    alignas(16) unsigned char room[PN_CONTROLLER_SIZE];
#else
    _Alignas(16) unsigned char room[PN_CONTROLLER_SIZE];
#endif
    uint32_t made; /* PN_MADE once pn_controller_start has returned PN_OK, and PN_CALLED while a call runs */
} pn_controller;

#if defined(__cplusplus)
static_assert(sizeof(pn_plan) == 4336 && sizeof(pn_search) == 268 && sizeof(pn_tool) == 16 && sizeof(pn_target) == 14,
              "another layout than the library's");
#else
_Static_assert(sizeof(pn_plan) == 4336 && sizeof(pn_search) == 268 && sizeof(pn_tool) == 16 && sizeof(pn_target) == 14,
               "another layout than the library's");
#endif

/* --- The calls. Use the functions below them. ---
 *
 * pn_controller_judge returns why no controller can be made from a plan and the number of its relation in a room of `size` octets, or
 * PN_OK if one can be made. pn_plan_judge returns the first fault of a plan, or PN_OK if it is valid.
 * pn_controller_put puts a controller into the room and overwrites its contents. Call it only with a plan for which pn_controller_judge
 * returned PN_OK, and a room of PN_CONTROLLER_SIZE octets whose address is a multiple of 16.
 * pn_controller_begin starts it: call it after pn_controller_put, before any pn_controller_step. Later it starts the controller again.
 * Before it, pn_controller_step does nothing and returns PN_NOT_MADE.
 * pn_controller_step executes one operation on a room into which pn_controller_put put a controller and that only these calls changed
 * since.
 * pn_plan_make reads a catalogue into a plan of `size` octets, and pn_plan_show writes the key of its first fault: it
 * returns 1, or 2 if there is nothing to write, or 0 if there is no memory. The memory that they write must have been initialised.
 * The six calls of a tool need no room: they write a frame into the operation, or read a received one.
 * Pointers must not be NULL, even if the length is 0. The operation, `given`, the plan, the numbers and the room must not overlap. */
uint32_t pn_plan_make(const uint8_t *text, size_t length, size_t size, pn_plan *plan);
uint32_t pn_plan_show(const uint8_t *text, size_t length, char *where, size_t size);
uint32_t pn_plan_judge(const pn_plan *plan);
uint32_t pn_controller_judge(size_t size, uint32_t abi, size_t op_size, const pn_plan *plan, const uint8_t ar[16]);
void pn_controller_put(void *room, const pn_plan *plan, const uint8_t ar[16], const uint8_t activity[16]);
void pn_controller_begin(void *room);
uint32_t pn_controller_step(void *room, pn_op *op, const uint8_t *given, size_t length);
uint32_t pn_tool_find(pn_tool *tool, pn_search *search, pn_op *op, const uint8_t *alias, size_t length);
void pn_tool_hear(const pn_tool *tool, pn_search *search, const uint8_t *given, size_t length);
uint32_t pn_tool_name(pn_tool *tool, const pn_search *search, pn_op *op, const uint8_t *text, size_t length);
uint32_t pn_tool_outcome(const pn_tool *tool, const pn_search *search, pn_op *op, const uint8_t *given, size_t length);
uint32_t pn_tool_read(const pn_tool *tool, const pn_target *target, const uint8_t activity[16], pn_op *op);
uint32_t pn_tool_record(const pn_tool *tool, const uint8_t activity[16], pn_op *op, const uint8_t *given, size_t length);

/* Reads the catalogue of a station, whose keys are those of GSDML. After a number from PN_PLAN_JSON on the plan is all zeros.
 * May return PN_NULL, PN_BAD_ABI (the plan of the header is not the library's), PN_PLAN_JSON to PN_PLAN_MEMORY. */
static inline uint32_t pn_plan_read(pn_plan *plan, const uint8_t *text, size_t length)
{
    if (text == NULL || plan == NULL)
        return PN_NULL;
    memset(plan, 0, sizeof *plan);
    return pn_plan_make(text, length, sizeof *plan, plan);
}

/* For a message: writes the key of the first fault of a catalogue, such as `Project.Slots[1].Slot`, followed by a zero; one that is too long for
 * the room is cut off. Returns 1 if it wrote a key, else 0: the catalogue has a plan, or the fault has no key, or there is no memory. The rest
 * of the room is zeros. Without a text or a room nothing changes. */
static inline uint32_t pn_plan_where(const uint8_t *text, size_t length, char *where, size_t size)
{
    if (text == NULL || where == NULL || size == 0)
        return 0;
    memset(where, 0, size);
    return pn_plan_show(text, length, where, size) == 1;
}

/* Returns the first fault of a plan that a host wrote, with the number that a catalogue with this fault has, or PN_OK if it is valid. The
 * order: a count that is more than its list holds (PN_PLAN_TOO_MANY); PN_PLAN_NUMBER (times, modules, submodules, parameter records, and
 * records that no submodule accepts); PN_PLAN_NAME; PN_PLAN_ADDRESS; PN_PLAN_NOT_ALLOWED (the order of the slots, a slot that occurs
 * twice, a record for slot 0); PN_PLAN_TOO_MANY (a slot past 15); PN_PLAN_FRAME_LONG; PN_PLAN_CONNECT_LONG. May also return PN_NULL. */
static inline uint32_t pn_plan_fault(const pn_plan *plan)
{
    return plan == NULL ? (uint32_t)PN_NULL : pn_plan_judge(plan);
}

/* Fills in the station that a plan expects, for a device that represents it. What a catalogue does not contain (the MAC address, texts of
 * I&M0) is unchanged. May return PN_NULL. */
static inline uint32_t pn_plan_station(const pn_plan *plan, pn_station *station)
{
    if (plan == NULL || station == NULL)
        return PN_NULL;
    station->vendor_id = plan->vendor_id;
    station->device_id = plan->device_id;
    station->station_type_length = (uint16_t)(plan->station_type_length > 25 ? 26 : plan->station_type_length);
    memcpy(station->station_type, plan->station_type, sizeof station->station_type);
    station->module_count = plan->module_count;
    memcpy(station->modules, plan->modules, sizeof station->modules);
    return PN_OK;
}

/* Makes the controller of a plan in a room of `size` octets. `abi` is the version of the caller's header, `op_size` the size of its
 * operation. It does not set `made` of a pn_controller: for a room elsewhere call pn_controller_step. May return PN_NULL, PN_BAD_ABI,
 * PN_SMALL_ROOM, PN_BAD_PLAN. */
static inline uint32_t pn_controller_make(void *room, size_t size, uint32_t abi, size_t op_size, const pn_plan *plan, const uint8_t ar[16],
                                          const uint8_t activity[16])
{
    uint32_t answer;
    if (room == NULL || plan == NULL || ar == NULL || activity == NULL)
        return PN_NULL;
    if ((uintptr_t)room % 16 != 0)
        return PN_SMALL_ROOM;
    answer = pn_controller_judge(size, abi, op_size, plan, ar);
    if (answer == PN_OK) {
        pn_controller_put(room, plan, ar, activity);
        pn_controller_begin(room);
    }
    return answer;
}

/* Makes the controller of a plan, and copies the plan. `ar` names its relation, `activity` its calls: unique numbers of 16 octets (UUIDs).
 * Its first frame waits to be fetched. Returns PN_BAD_PLAN if pn_plan_fault finds a fault in the plan, or if `ar` is zeros.
 * May return PN_NULL, PN_BAD_ABI, PN_SMALL_ROOM, PN_BAD_PLAN, PN_IN_CALL. */
static inline uint32_t pn_controller_start(pn_controller *controller, const pn_plan *plan, const uint8_t ar[16], const uint8_t activity[16])
{
    uint32_t answer, was;
    if (controller == NULL)
        return PN_NULL;
    if (pn_enter_new(&controller->made, &was) != PN_OK)
        return PN_IN_CALL;
    answer = pn_controller_make(controller->room, sizeof controller->room, PN_ABI, PN_OP_LENGTH, plan, ar, activity);
    pn_leave(&controller->made, answer == PN_OK ? PN_MADE : was);
    return answer;
}

/* One operation, with the octets `given`; NULL if there are none. */
static inline uint32_t pn_controller_ask(pn_controller *controller, pn_op *op, uint32_t what, const uint8_t *given, size_t length)
{
    static const uint8_t none[1] = {0};
    uint32_t answer;
    if (controller == NULL || op == NULL || (given == NULL && length != 0))
        return PN_NULL;
    answer = pn_enter(&controller->made);
    if (answer != PN_OK)
        return answer;
    op->what = what;
    answer = pn_controller_step(controller->room, op, given == NULL ? none : given, length);
    pn_leave(&controller->made, PN_MADE);
    return answer;
}

/* One operation that changes nothing in the controller. */
static inline uint32_t pn_controller_read(const pn_controller *controller, pn_op *op, uint32_t what)
{
    return pn_controller_ask((pn_controller *)(uintptr_t)controller, op, what, NULL, 0);
}

/* --- What each function reads and sets of the operation, beside `what` (nandutable.h has the fields) ---
 *
 *   function                                         reads                          sets
 *   pn_controller_frame                              nothing                        nothing
 *   pn_controller_tick                               units                          units
 *   pn_controller_give                               slot, subslot                  nothing
 *   pn_controller_status                             slot, subslot, is_good         nothing
 *   pn_controller_read_record, .._write_record       slot, subslot, index           nothing
 *   pn_controller_stop                               nothing                        nothing
 *   pn_controller_next, .._send                      nothing                        work, length, octets
 *   pn_controller_value                              slot, subslot                  length, octets
 *   pn_controller_state                              nothing                        phase, cause
 *   pn_controller_provider                           slot, subslot                  iops, data_status
 *   pn_controller_due                                nothing                        due
 *   pn_controller_conflicts                          nothing                        count
 *   pn_controller_neighbour                          nothing                        port_length, chassis_length, length, octets
 *   pn_controller_refusal                            nothing                        status
 *   pn_controller_refused_record                     nothing                        number, status
 *   pn_controller_answer                             nothing                        status, length, octets
 *   pn_controller_alarm                              nothing                        slot, subslot, alarm_type, specifier, length, octets
 *   pn_controller_report                             is_low                         the same, structure, sequence
 *   pn_controller_diagnoses                          nothing                        count, left_out
 *   pn_controller_diagnosis                          number                         slot, subslot, channel, error
 *   pn_controller_place                              slot, subslot                  phase
 *   pn_tool_ask, pn_tool_give                        nothing                        length, octets
 *   pn_tool_given                                    nothing                        block_error
 *   pn_tool_ask_record                               slot, subslot, index           length, octets
 *   pn_tool_record_in                                nothing                        status, length, octets */

/* --- Events. Before each, all frames of the previous one must be fetched, otherwise PN_HAS_WORK. They may also return PN_NULL, PN_NOT_MADE, PN_IN_CALL,
 * and what each names. What a function does not name as set keeps its value in the operation. --- */

/* Hands in a received frame: its octets from the destination address on, without the check sequence. The interface must accept the
 * controller's address, the broadcast address and, for LLDP, the multicast address 01-80-C2-00-00-0E. No other program of this machine should answer ARP for the controller's address. */
static inline uint32_t pn_controller_frame(pn_controller *controller, pn_op *op, const uint8_t *octets, size_t length)
{
    return pn_controller_ask(controller, op, 3, octets, length);
}

/* `units` units of time have passed (PN_UNIT_NS each). It stops after a unit that sends something or ends the controller: then `units` of
 * the operation is the remaining number. Take the frames, and hand in the rest again. */
static inline uint32_t pn_controller_tick(pn_controller *controller, pn_op *op, uint32_t units)
{
    if (op == NULL)
        return PN_NULL;
    op->units = units;
    return pn_controller_ask(controller, op, 4, NULL, 0);
}

/* The application sets the output of a submodule. It may be set before data is exchanged, and is kept. May return PN_NO_SLOT (the plan has
 * no submodule with an output there), PN_BAD_LENGTH (its output has another length). */
static inline uint32_t pn_controller_give(pn_controller *controller, pn_op *op, uint16_t slot, uint16_t subslot, const uint8_t *octets,
                                          size_t length)
{
    if (op == NULL)
        return PN_NULL;
    op->slot = slot;
    op->subslot = subslot;
    return pn_controller_ask(controller, op, 5, octets, length);
}

/* The application says whether the output of a submodule is good. Good at first; kept until it is said again. The IOPS of an output is good
 * once a value was given (pn_controller_give) and while its status is good. A bad status keeps the value. May return PN_NO_SLOT (the plan
 * has no submodule with an output there). */
static inline uint32_t pn_controller_status(pn_controller *controller, pn_op *op, uint16_t slot, uint16_t subslot, int is_good)
{
    if (op == NULL)
        return PN_NULL;
    op->slot = slot;
    op->subslot = subslot;
    op->is_good = is_good != 0;
    return pn_controller_ask(controller, op, 16, NULL, 0);
}

/* The application reads a record of the device: one request at a time, while data is exchanged. It is sent again each second until its
 * answer comes (pn_controller_answer), and dropped if the relation ends. A refusal does not end the relation. May return PN_BUSY. */
static inline uint32_t pn_controller_read_record(pn_controller *controller, pn_op *op, uint16_t slot, uint16_t subslot, uint16_t index)
{
    if (op == NULL)
        return PN_NULL;
    op->slot = slot;
    op->subslot = subslot;
    op->index = index;
    return pn_controller_ask(controller, op, 30, NULL, 0);
}

/* The same for a record that it writes. May return PN_BAD_LENGTH (more than 1,308 octets), PN_BUSY. */
static inline uint32_t pn_controller_write_record(pn_controller *controller, pn_op *op, uint16_t slot, uint16_t subslot, uint16_t index,
                                                  const uint8_t *octets, size_t length)
{
    if (op == NULL)
        return PN_NULL;
    op->slot = slot;
    op->subslot = subslot;
    op->index = index;
    return pn_controller_ask(controller, op, 31, octets, length);
}

/* The application stops the controller, which releases the relation. */
static inline uint32_t pn_controller_stop(pn_controller *controller, pn_op *op)
{
    return pn_controller_ask(controller, op, 13, NULL, 0);
}

/* Hands out the next frame of the last event, each once: `work` is PN_SEND, with the frame in `length` and `octets`, or PN_NOTHING after
 * the last, with a `length` of 0. */
static inline uint32_t pn_controller_next(pn_controller *controller, pn_op *op)
{
    return pn_controller_ask(controller, op, 7, NULL, 0);
}

/* Takes all frames and sends them by the host's `send`, which may do what nandutable.h says of pn_host. The other functions of `host` are
 * not called, and may be null. May return PN_NULL, PN_NOT_MADE, PN_IN_CALL (call it again), PN_NOT_SENT (a frame was lost, as it could be on the wire). */
static inline uint32_t pn_controller_send(pn_controller *controller, pn_op *op, const pn_host *host)
{
    uint32_t answer, sent = PN_OK;
    if (host == NULL || host->send == NULL)
        return PN_NULL;
    for (;;) {
        answer = pn_controller_next(controller, op);
        if (answer != PN_OK)
            return answer;
        if (op->work != PN_SEND)
            return sent;
        if (host->send(host->context, op->octets, op->length) != 0)
            sent = PN_NOT_SENT;
    }
}

/* --- Reading a controller. Each function changes nothing in it. They may return PN_NULL, PN_NOT_MADE, PN_IN_CALL, and what each names. --- */

/* The input of a submodule, in `length` and `octets`: its value in the last accepted cyclic frame. Zeros if no frame was accepted yet, if
 * its IOPS is not GOOD, and after the end of the controller. May return PN_NO_SLOT. */
static inline uint32_t pn_controller_value(const pn_controller *controller, pn_op *op, uint16_t slot, uint16_t subslot)
{
    if (op == NULL)
        return PN_NULL;
    op->slot = slot;
    op->subslot = subslot;
    return pn_controller_read(controller, op, 8);
}

/* Its state (`phase`), and the cause of its end (`cause`). */
static inline uint32_t pn_controller_state(const pn_controller *controller, pn_op *op)
{
    return pn_controller_read(controller, op, 9);
}

/* What the device says of the input of a submodule in its last accepted frame: its IOPS, and the frame's DataStatus. Bit 4 of DataStatus
 * (PN_PROVIDER_RUNS) is clear while the device is stopped. May return PN_NO_FRAME: no data is exchanged, the input has no place, or no frame
 * was accepted yet. */
static inline uint32_t pn_controller_provider(const pn_controller *controller, pn_op *op, uint16_t slot, uint16_t subslot, uint8_t *iops,
                                              uint8_t *data_status)
{
    uint32_t answer;
    if (op == NULL || iops == NULL || data_status == NULL)
        return PN_NULL;
    op->slot = slot;
    op->subslot = subslot;
    answer = pn_controller_read(controller, op, 18);
    if (answer == PN_OK) {
        *iops = (uint8_t)op->iops;
        *data_status = (uint8_t)op->data_status;
    }
    return answer;
}

/* How many units may pass until something is due: with the last of them, and with none before it, the controller sends a frame, sends a
 * request again, announces its address or itself, forgets its neighbour, or ends. It is also in `due` of the operation. 4,294,967,295 if no unit ever does any of these. An event may change it.
 * So a host sleeps until that unit is over, or until the next event. */
static inline uint32_t pn_controller_due(const pn_controller *controller, pn_op *op, uint32_t *due)
{
    uint32_t answer;
    if (due == NULL)
        return PN_NULL;
    answer = pn_controller_read(controller, op, 15);
    if (answer == PN_OK)
        *due = op->due;
    return answer;
}

/* How many ARP frames came from another station that uses the controller's address, at most 4,294,967,295: also in `count` of the operation.
 * After each of them the controller announces its address once more, at most once in 10 seconds. */
static inline uint32_t pn_controller_conflicts(const pn_controller *controller, pn_op *op, uint32_t *conflicts)
{
    uint32_t answer;
    if (conflicts == NULL)
        return PN_NULL;
    answer = pn_controller_read(controller, op, 19);
    if (answer == PN_OK)
        *conflicts = op->count;
    return answer;
}

/* The neighbour by LLDP that was heard last, as long as it says that this is valid: the station at the other end of the controller's cable.
 * PN_NO_SLOT if none is known. */
static inline uint32_t pn_controller_neighbour(const pn_controller *controller, pn_op *op, pn_neighbour *neighbour)
{
    uint32_t answer;
    if (neighbour == NULL)
        return PN_NULL;
    answer = pn_controller_read(controller, op, 37);
    if (answer == PN_OK) {
        memcpy(neighbour->mac, op->octets, sizeof neighbour->mac);
        neighbour->port_length = (uint16_t)op->port_length;
        neighbour->chassis_length = (uint16_t)op->chassis_length;
        memcpy(neighbour->port, op->octets + 6, op->port_length);
        memcpy(neighbour->chassis, op->octets + 6 + op->port_length, op->chassis_length);
    }
    return answer;
}

/* The status with which the device refused a call last, also one that is tried again: the PNIOStatus of its response (the first octet, ErrorCode, is the highest:
 * 0xDF80B200), or the status of a reject or a fault of DCE RPC. Also in `status` of the operation. May return PN_NO_REFUSAL. */
static inline uint32_t pn_controller_refusal(const pn_controller *controller, pn_op *op, uint32_t *status)
{
    uint32_t answer;
    if (status == NULL)
        return PN_NULL;
    answer = pn_controller_read(controller, op, 20);
    if (answer == PN_OK)
        *status = op->status;
    return answer;
}

/* The last record of the plan that the device refused: its place in `records` of the plan, from 0 on, and its PNIOStatus as above. Also in
 * `number` and `status` of the operation. Records are written in the order of the plan, so a later one has a greater place. Of the records of
 * one Write (multiple_write) it is the first one that was refused. May return PN_NO_REFUSAL. */
static inline uint32_t pn_controller_refused_record(const pn_controller *controller, pn_op *op, uint32_t *place, uint32_t *status)
{
    uint32_t answer;
    if (place == NULL || status == NULL)
        return PN_NULL;
    answer = pn_controller_read(controller, op, 33);
    if (answer == PN_OK) {
        *place = op->number;
        *status = op->status;
    }
    return answer;
}

/* The answer to the last pn_controller_read_record or pn_controller_write_record: its status, 0 if it succeeded, otherwise as that of
 * pn_controller_refusal, also in `status` of the operation; the record that was read in `length` and `octets`. May return PN_NO_ANSWER. */
static inline uint32_t pn_controller_answer(const pn_controller *controller, pn_op *op, uint32_t *status)
{
    uint32_t answer;
    if (status == NULL)
        return PN_NULL;
    answer = pn_controller_read(controller, op, 32);
    if (answer == PN_OK)
        *status = op->status;
    return answer;
}

/* The last accepted alarm of high priority: `slot`, `subslot`, `alarm_type`, `specifier` (AlarmSpecifier), and the octets that follow its
 * UserStructureIdentifier in `length` and `octets`. PN_NO_SLOT if none was accepted. */
static inline uint32_t pn_controller_alarm(const pn_controller *controller, pn_op *op)
{
    return pn_controller_read(controller, op, 12);
}

/* The last accepted alarm of low priority if `is_low` is not 0, otherwise of high priority: as pn_controller_alarm, with its
 * UserStructureIdentifier in `structure` (65,536 if the alarm ends with its AlarmSpecifier), and its SendSeqNum in `sequence`. That number differs
 * from the number of the alarm before it, so look after each event to see each alarm. PN_NO_SLOT if none was accepted. */
static inline uint32_t pn_controller_report(const pn_controller *controller, pn_op *op, int is_low)
{
    if (op == NULL)
        return PN_NULL;
    op->is_low = is_low != 0;
    return pn_controller_read(controller, op, 34);
}

/* How many diagnoses exist at the device, as its alarms reported them in this relation: `count`, at most PN_DIAGNOSES; and for how many more
 * the list had no room: `left_out`. If that is not 0, a read of the record 0xF80C shows all. Both are also in `count` and `left_out` of
 * the operation. Both are 0 before the relation and after its end. */
static inline uint32_t pn_controller_diagnoses(const pn_controller *controller, pn_op *op, uint32_t *count, uint32_t *left_out)
{
    uint32_t answer;
    if (count == NULL || left_out == NULL)
        return PN_NULL;
    answer = pn_controller_read(controller, op, 35);
    if (answer == PN_OK) {
        *count = op->count;
        *left_out = op->left_out;
    }
    return answer;
}

/* One of these diagnoses, by its place in the list from 0 on, in the order in which they appeared: its `slot` and `subslot`, its ChannelNumber
 * in `channel` (0x8000: the submodule itself) and its ChannelErrorType in `error`. PN_NO_SLOT if the list is shorter. */
static inline uint32_t pn_controller_diagnosis(const pn_controller *controller, pn_op *op, uint32_t number)
{
    if (op == NULL)
        return PN_NULL;
    op->number = number;
    return pn_controller_read(controller, op, 36);
}

/* What is known of a place of the plan (enum pn_known): of a submodule that the Connect expects, by the answer to the Connect and by the
 * alarms of pulls and plugs. PN_NO_SLOT if the plan has no such submodule, before the relation is established, and after it ended. */
static inline uint32_t pn_controller_place(const pn_controller *controller, pn_op *op, uint16_t slot, uint16_t subslot, uint32_t *place)
{
    uint32_t answer;

    if (op == NULL || place == NULL)
        return PN_NULL;
    op->slot = slot;
    op->subslot = subslot;
    answer = pn_controller_read(controller, op, 38);
    if (answer == PN_OK)
        *place = op->phase;
    return answer;
}

/* --- What a tool does before a controller starts. Frames that it writes are in `length` and `octets` of the operation. --- */

/* Begins a search: writes an Identify for the name of a station by its place (AliasName): the port of its neighbour, a dot and the name of its
 * neighbour, such as `port-002.switch-1`. It has the next Xid of the tool. Send it to all stations, and hand each frame that arrives in the
 * next second to pn_tool_heard; to ask again, send the same frame again. The search need not be initialised. May return PN_NULL, PN_BAD_LENGTH
 * (no octets, or more than 511); then nothing changes. */
static inline uint32_t pn_tool_ask(pn_tool *tool, pn_search *search, pn_op *op, const uint8_t *alias, size_t length)
{
    return tool == NULL || search == NULL || op == NULL || alias == NULL ? (uint32_t)PN_NULL : pn_tool_find(tool, search, op, alias, length);
}

/* Hands in a received frame. Only an answer to the Identify of this search changes it: one with the Xid of the search. An answer to the Identify
 * of another search does not, however late it comes. May return PN_NULL. */
static inline uint32_t pn_tool_heard(const pn_tool *tool, pn_search *search, const uint8_t *octets, size_t length)
{
    if (tool == NULL || search == NULL || octets == NULL)
        return PN_NULL;
    pn_tool_hear(tool, search, octets, length);
    return PN_OK;
}

/* Writes a Set of a name to the station that answered, which then has it for good: only if it is the only one that answered, and its
 * answer says that it has no name. The Set has the next Xid of the tool; to send it again, send the same frame again. May return PN_NULL, PN_PLAN_NAME (the text
 * is no station name), PN_NOBODY, PN_SEVERAL, PN_HAS_NAME, PN_NAME_UNTOLD; then nothing changes. */
static inline uint32_t pn_tool_give(pn_tool *tool, const pn_search *search, pn_op *op, const uint8_t *text, size_t length)
{
    return tool == NULL || search == NULL || op == NULL || text == NULL ? (uint32_t)PN_NULL : pn_tool_name(tool, search, op, text, length);
}

/* Reads what a received frame answers to that Set, the last request of the tool: its BlockError in `block_error` of the operation, 0 if the station has
 * the name. Only an answer of that station with the Xid of the tool counts. May return PN_NULL, PN_NO_ANSWER. */
static inline uint32_t pn_tool_given(const pn_tool *tool, const pn_search *search, pn_op *op, const uint8_t *octets, size_t length)
{
    return tool == NULL || search == NULL || op == NULL || octets == NULL ? (uint32_t)PN_NULL
                                                                           : pn_tool_outcome(tool, search, op, octets, length);
}

/* Writes a call that reads a record of a station without a relation (Read Implicit). `activity` is a unique number of 16 octets (a UUID), of
 * this call alone. May return PN_NULL. */
static inline uint32_t pn_tool_ask_record(const pn_tool *tool, const pn_target *target, const uint8_t activity[16], pn_op *op, uint16_t slot,
                                          uint16_t subslot, uint16_t index)
{
    if (tool == NULL || target == NULL || activity == NULL || op == NULL)
        return PN_NULL;
    op->slot = slot;
    op->subslot = subslot;
    op->index = index;
    return pn_tool_read(tool, target, activity, op);
}

/* Reads what a received frame answers to that call: its status in `status` of the operation, 0 if it succeeded, otherwise as that of
 * pn_controller_refusal; the record in `length` and `octets`. May return PN_NULL, PN_NO_ANSWER. */
static inline uint32_t pn_tool_record_in(const pn_tool *tool, const uint8_t activity[16], pn_op *op, const uint8_t *octets, size_t length)
{
    return tool == NULL || activity == NULL || op == NULL || octets == NULL ? (uint32_t)PN_NULL
                                                                             : pn_tool_record(tool, activity, op, octets, length);
}

#ifdef __cplusplus
}
#endif

#endif
