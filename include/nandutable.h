/* nandutable: a PROFINET IO device whose settings survive a power failure at any moment.
 *
 * The host hands in events (a frame, units of time, an input, an alarm). The device hands out work: flash calls first, then frames. It
 * uses only the memory of the room that it is given, allocates none, calls nothing back and keeps no time of its own. Call it for one
 * device from one thread at a time: a call while another one with the same device runs returns PN_IN_CALL and changes nothing. That is all
 * that one word can tell. An event with its work, and pn_news, are several calls: a thread that takes its turn between them finds the work of the
 * other one, and octets that pn_next handed out last until the next call of any thread.
 *
 *     static pn_device device;                    // the memory of a device
 *     static pn_op op;                            // one operation: the request and the answer
 *     pn_make(&device, &station);                 // what the device is, and what is plugged in it
 *     pn_boot(&device, &op, first, second);       // the contents of the chip; the running settings are read from it
 *     for (;;) {
 *         pn_frame(&device, &op, octets, length); // or pn_tick, pn_input, pn_alarm
 *         pn_carry_out(&device, &op, &host);      // or pn_next while work remains
 *     }
 *
 * Keep the order of the work: the library's promise depends on it. Complete each flash call durably before the next one, and all of them
 * before the first frame. Then, wherever power fails, a restart finds the settings from before the step or those that the step
 * answered for. A flash call that fails counts as lost power: send nothing more of this step, and start again with pn_make and pn_boot
 * from the contents of the chip.
 *
 * Every function returns a number of nandutable_numbers.h: PN_OK, or the reason why it did nothing (pn_strerror has its text). After any
 * other number than PN_OK the device is unchanged, and the operation holds only the request; after PN_REFUSED also the reason. Numbers of two or four octets have the byte
 * order of the machine; octets of frames and values are as on the wire.
 *
 * Under the MIT licence or the Apache License 2.0, as you choose. */
#ifndef NANDUTABLE_H
#define NANDUTABLE_H

#include "nandutable_numbers.h"

#include <stddef.h>
#include <stdint.h>
#include <string.h>

#ifdef __cplusplus
extern "C" {
#endif

/* Octets of the room of a device; its address is a multiple of 16. */
#define PN_DEVICE_SIZE 73328u
/* Octets of each of the two flash sectors. An erased sector is all ones; a program call turns ones to zeros. */
#define PN_SECTOR_SIZE 4096u
/* The longest frame, without its check sequence, with a VLAN tag; 1,514 without one. A received frame may be longer; it is refused. */
#define PN_FRAME_SIZE 1518u
/* The maximum number of octets of one operation, and the octets of an operation up to and with these: the library uses no others. */
#define PN_OP_SIZE 1520u
#define PN_OP_LENGTH 1680u
/* A unit of time, in nanoseconds: 32 of them are a millisecond. */
#define PN_UNIT_NS 31250u
/* How many units a host may be late and still catch up, from the unit on in which something was due (pn_due). Units before it are not late: a host
 * that sleeps until something is due hands in all of them. So once the units that it has not handed in yet reach `due`, it keeps at most
 * `due` + PN_MOST_DEBT of them and drops the rest; otherwise repeats and error frames would go out in one burst after a stall. */
#define PN_MOST_DEBT 64u
/* What can be plugged, at most: 16 modules, one of them the access point, 4 submodules of a module, and 2 parameter records of a submodule. A
 * Connect may expect more: 64 modules and 64 submodules in all. What is not plugged is then in its ModuleDiffBlock. */
#define PN_MODULES 16u
#define PN_SUBMODULES 4u
#define PN_PARAMETERS 2u
#define PN_PLACES 64u /* submodules that a Connect expects, at most */
/* Records that the application answers, at most, and the most octets of one. */
#define PN_ASKED_RECORDS 16u
#define PN_RECORD_SIZE 1308u

/* The result of an event that was accepted (pn_op.note). None of them is a fault of the host. Only a frame has another one than PN_DONE: what
 * the application says is done, or PN_REFUSED is returned. */
enum pn_note {
    PN_DONE = 0,        /* it was executed or answered, also by a negative answer */
    PN_NOT_MINE = 1,    /* the frame is for another station, or of a kind that a device does not accept */
    PN_FAULT = 2,       /* the frame cannot be read */
    PN_FILTER = 3,      /* an Identify request that does not match */
    PN_OLD_CALL = 4,    /* an outdated call: a later call of the same activity was already answered; no answer is sent */
    PN_NO_RELATION = 5, /* the frame belongs to no existing relation */
    PN_STALE_CYCLE = 6  /* a cyclic frame with invalid data, or with a counter that is not newer */
};

/* Why the device refused what its application said (pn_op.reason, if a function returned PN_REFUSED). Nothing has changed then. Each function
 * names its reasons in their order: of several that hold it is the first one.
 *
 * What to do: with PN_WHY_NO_RELATION, PN_WHY_NO_EXCHANGE and PN_WHY_TOO_EARLY wait: give an input at PN_NEW_RELATION of pn_news, an alarm at
 * PN_EXCHANGING, pn_ready at PN_PARAMETERS_END, pn_ready_at at PN_PLACE_ENDED. With PN_WHY_ALARM_OPEN and PN_WHY_CHANGES_WAIT try again, each ten
 * milliseconds for instance; with PN_WHY_FULL when another diagnosis has disappeared. With PN_WHY_NO_PLACE report it if
 * pn_expected lists the submodule: the plan gives its input another length than the station. With PN_WHY_EXISTS, PN_WHY_ABSENT, PN_WHY_TOO_LATE,
 * PN_WHY_NO_PLUG and PN_WHY_NOT_ASKED do nothing. With all others mend the program: it does not fit the station, or it plugs
 * before it pulls. */
enum pn_reason {
    PN_WHY_NOT_PLUGGED = 1,   /* no submodule is plugged in this slot and subslot */
    PN_WHY_NO_RELATION = 2,   /* no controller has a relation with the device */
    PN_WHY_BAD_LENGTH = 3,    /* pn_input: the input of the submodule has another length; pn_alarm: more than 32 octets; pn_answer: more octets
                               * than the greatest length of the record */
    PN_WHY_NO_PLACE = 4,      /* pn_input: the relation has no input of this submodule with this length */
    PN_WHY_NO_EXCHANGE = 5,   /* pn_alarm: there is a relation, but data is not exchanged yet */
    PN_WHY_ALARM_OPEN = 6,    /* pn_alarm: the controller has not confirmed the alarm before this one yet */
    PN_WHY_BAD_NUMBER = 7,    /* pn_diagnosis: a channel after 0x8000, or the error 0 */
    PN_WHY_EXISTS = 8,        /* pn_diagnosis, one that appears: it exists already */
    PN_WHY_ABSENT = 9,        /* pn_diagnosis, one that disappears: it does not exist */
    PN_WHY_FULL = 10,         /* pn_diagnosis, one that appears: 32 exist */
    PN_WHY_CHANGES_WAIT = 11, /* pn_diagnosis, pn_pull, pn_pull_module, pn_plug: 32 changes wait for their alarms */
    PN_WHY_TOO_EARLY = 12,    /* pn_ready: PrmEnd was not accepted yet; pn_ready_at: that of the plug was not */
    PN_WHY_TOO_LATE = 13,     /* pn_ready, pn_ready_at: ApplicationReady was sent; so always after PrmEnd without `ready_by_application` */
    PN_WHY_ACCESS_POINT = 14, /* pn_pull, pn_pull_module, pn_plug: slot 0, the access point, stays as it is */
    PN_WHY_OTHER_MODULE = 15, /* pn_plug: a module with another ident number is plugged in this slot */
    PN_WHY_PLUGGED = 16,      /* pn_plug: a submodule is plugged there already */
    PN_WHY_NO_ROOM = 17,      /* pn_plug: four submodules are plugged in this module */
    PN_WHY_BAD_SUBMODULE = 18, /* pn_plug: a number is not in its range */
    PN_WHY_NO_PLUG = 19,      /* pn_ready_at: the relation knows of no plug there, or its ApplicationReady is answered */
    PN_WHY_NOT_ASKED = 20,    /* pn_answer, pn_written, pn_refuse: nothing is asked under this number, or no longer */
    PN_WHY_OTHER_KIND = 21,   /* pn_answer: what is asked is a Write; pn_written: it is a Read */
    PN_WHY_BAD_CODE = 22      /* pn_refuse: ErrorCode1 is below 0xA0 or above 0xAF */
};

/* The text of a reason, for a message. It is never null, and lasts as long as the program. */
static inline const char *pn_strreason(uint32_t reason)
{
    switch (reason) {
    case PN_WHY_NOT_PLUGGED: return "nothing is plugged there";
    case PN_WHY_NO_RELATION: return "there is no relation";
    case PN_WHY_BAD_LENGTH: return "another number of octets is expected";
    case PN_WHY_NO_PLACE: return "the relation has no such input";
    case PN_WHY_NO_EXCHANGE: return "no data is exchanged";
    case PN_WHY_ALARM_OPEN: return "the alarm before it is not acknowledged yet";
    case PN_WHY_BAD_NUMBER: return "a channel is 0 to 32767, or 32768 for the submodule itself, and an error is 1 to 65535";
    case PN_WHY_EXISTS: return "it exists already";
    case PN_WHY_ABSENT: return "it does not exist";
    case PN_WHY_FULL: return "32 diagnoses exist";
    case PN_WHY_CHANGES_WAIT: return "32 changes wait for their alarms";
    case PN_WHY_TOO_EARLY: return "the parameters have not ended";
    case PN_WHY_TOO_LATE: return "ApplicationReady was sent";
    case PN_WHY_ACCESS_POINT: return "slot 0, the access point, stays as it is";
    case PN_WHY_OTHER_MODULE: return "another module is plugged in this slot";
    case PN_WHY_PLUGGED: return "a submodule is plugged there already";
    case PN_WHY_NO_ROOM: return "four submodules are plugged in this module";
    case PN_WHY_BAD_SUBMODULE:
        return "a slot is 1 to 15, a subslot 1 to 36863, an ident number of a module at least 1, data at most 1440 octets, the index of a record at most "
               "32767 and no other's, and its length 1 to 64";
    case PN_WHY_NO_PLUG: return "no plug there waits for the application";
    case PN_WHY_NOT_ASKED: return "nothing is asked under this number";
    case PN_WHY_OTHER_KIND: return "a Read is answered by octets, a Write is not";
    case PN_WHY_BAD_CODE: return "ErrorCode1 of an application is 0xA0 to 0xAF";
    default: return "no reason";
    }
}

/* What became of the process alarm that was open before an event (pn_op.confirmed), reported once, by the event with which it is over. After
 * each of the two pn_alarm accepts the next alarm, if data is exchanged. */
enum pn_confirmed {
    PN_UNCONFIRMED = 0,  /* nothing: no alarm was open, or it is still open */
    PN_ACKNOWLEDGED = 1, /* the controller acknowledged it (AlarmAck): `status` is 0 if it handled the alarm, and otherwise says why not */
    PN_GIVEN_UP = 2      /* its relation ended first: nobody knows whether the controller handled it */
};

/* How far a place is: a submodule that the Connect of the relation expects (pn_op.progress). After a pull or a plug there its data is not valid,
 * in either direction (IOPS and IOCS are bad, pn_output returns zeros), until the controller has confirmed ApplicationReady for the plug. */
enum pn_progress {
    PN_PLACE_GOOD = 0,    /* what is expected is plugged, and the relation exchanges its data */
    PN_PLACE_DIFFERS = 1, /* nothing is plugged there, or something else than is expected */
    PN_PLACE_PLUGGED = 2, /* what is expected was plugged, and the alarm that reports it waits */
    PN_PLACE_TOLD = 3,    /* the alarm was sent: the controller writes the parameters */
    PN_PLACE_ENDED = 4,   /* the controller has ended the parameters: with `ready_by_application`, call pn_ready_at when they are in use */
    PN_PLACE_REFUSED = 5  /* the controller refused ApplicationReady: only another pull and plug, or another relation, can change this */
};

/* What is wanted of a record that the application answers (pn_op.wanted). */
enum pn_wanted {
    PN_WANTS_READ = 1, /* its octets: answer with pn_answer */
    PN_WANTS_WRITE = 2 /* that these octets are written: answer with pn_written when that is done */
};

/* What the application relation waits for (pn_op.phase). */
enum pn_phase {
    PN_NONE = 0,      /* there is no relation */
    PN_STARTED = 1,   /* for the end of its parameters, PrmEnd */
    PN_AWAITING = 2,  /* for pn_ready, or for the answer to ApplicationReady */
    PN_EXCHANGING = 3 /* data is exchanged */
};

/* A piece of work (pn_op.work and pn_op.more). */
enum pn_work {
    PN_NOTHING = 0, /* no work of the step remains */
    PN_PROGRAM = 1, /* program the `length` octets at `data` into `sector`, from `place` on */
    PN_ERASE = 2,   /* erase `sector` */
    PN_SEND = 3     /* send the `length` octets at `data` */
};

/* What pn_step is asked to do (pn_op.what). The functions below set it. */
enum pn_what {
    PN_OP_SECTOR = 1,
    PN_OP_BOOT = 2,
    PN_OP_FRAME = 3,
    PN_OP_TICK = 4,
    PN_OP_INPUT = 5,
    PN_OP_ALARM = 6,
    PN_OP_OUTPUT = 8,
    PN_OP_STATE = 9,
    PN_OP_RUNNING = 10,
    PN_OP_STORED = 11,
    PN_OP_LOSE = 12,
    PN_OP_RECORD = 13,
    PN_OP_LEFT = 14,
    PN_OP_DUE = 15,
    PN_OP_STATUS = 16,
    PN_OP_READY = 17,
    PN_OP_PROVIDER = 18,
    PN_OP_DIAGNOSIS = 19,
    PN_OP_CONFLICTS = 20,
    PN_OP_LINK = 21,
    PN_OP_PASSED = 22,
    PN_OP_PASSED_ON = 23,
    PN_OP_FRAME_AFTER = 24,
    PN_OP_RECEIVED = 25,
    PN_OP_RUN = 26,
    PN_OP_STOP = 27,
    PN_OP_PULL = 28,
    PN_OP_PULL_MODULE = 29,
    PN_OP_PLUG = 30,
    PN_OP_READY_AT = 31,
    PN_OP_EXPECTED = 32,
    PN_OP_ASKED = 33,
    PN_OP_ANSWER = 34,
    PN_OP_WRITTEN = 35,
    PN_OP_REFUSE = 36
};

/* A parameter record that a submodule accepts: its index, 0 to 32,767 and no other record's of the submodule, and its exact length, 1 to
 * 64 octets. */
typedef struct pn_parameter {
    uint16_t index;
    uint16_t length;
} pn_parameter;

/* A submodule in a subslot from 1 to 36,863, which no other submodule of the module has. `input` and `output` are octets of data, at most
 * 1,439, 0 for no data. */
typedef struct pn_submodule {
    uint32_t ident;
    uint16_t subslot;
    uint16_t input;
    uint16_t output;
    uint16_t parameter_count;
    pn_parameter parameters[PN_PARAMETERS];
} pn_submodule;

/* A module in a slot from 0 to 15, which no other module has. */
typedef struct pn_module {
    uint32_t ident;
    uint16_t slot;
    uint16_t submodule_count;
    pn_submodule submodules[PN_SUBMODULES];
} pn_module;

/* A record that the application answers. A controller reads or writes it, or a tool reads it without a relation, and the device asks the
 * application (pn_asked). Its index is 0 to 32,767; no other such record has the same slot, subslot and index. A parameter record of a submodule
 * that has the same ones comes first. The submodule may be any, also one that is plugged later: as long as nothing is plugged there, the device
 * refuses the call. */
typedef struct pn_asked_record {
    uint16_t slot;
    uint16_t subslot;
    uint16_t index;
    uint16_t greatest_length; /* 1 to PN_RECORD_SIZE octets */
    uint16_t is_readable;     /* not 0: it can be read */
    uint16_t is_writable;     /* not 0: it can be written. A record has at least one of both */
} pn_asked_record;

/* Beside a device are the services of its IP address and its neighbours. They answer echo requests (ping), the endpoint mapper's lookups,
 * pings of RPC and calls to unknown interfaces or operations; they announce the address, count its conflicts (pn_conflicts) and defend it. They send LLDP each
 * five seconds and hear that of the neighbour, which the device then knows: its port and interface records and the name by its place
 * (AliasName) tell it. They hear only what the device does not accept, and ARP. With `without_services` the device is alone, and all of
 * these are silent; it answers ARP by itself in both cases.
 *
 * The factory data of a device, and what is plugged in it. The first octet of `mac` is even. Texts are padded with spaces. The access point
 * is slot 0: subslot 1, its interface 0x8000 and its ports from 0x8001 on. */
typedef struct pn_station {
    uint8_t mac[6];
    uint16_t vendor_id;
    uint16_t device_id;
    uint16_t instance;
    uint16_t hardware_revision;
    uint16_t profile_id;
    uint16_t profile_specific_type;
    uint16_t station_type_length; /* at most 25 */
    uint8_t station_type[28];     /* DeviceVendorValue */
    uint8_t order_id[20];
    uint8_t serial_number[16];
    uint8_t software_revision[4]; /* a letter and three numbers */
    /* What the application decides. Zeros: any interval, inputs that are good from the start, ready when the parameters have ended, any
     * station may hold a relation, each parameter record is kept, each relation has the same numbers, the answer to a Read Implicit is
     * stored, what is asked of the application is asked until it is answered, and services beside the device. */
    uint32_t smallest_interval;    /* of cyclic frames, in units of PN_UNIT_NS, at most 65,536: a Connect with a smaller one is refused */
    uint16_t inputs_begin_bad;     /* not 0: the IOPS of a submodule with inputs is bad until its first pn_input in the relation */
    uint16_t ready_by_application; /* not 0: ApplicationReady is sent at pn_ready, and not with the answer to PrmEnd. From PrmEnd on the activity
                                    * timer of the relation runs (CMInitiatorActivityTimeoutFactor of the Connect): it ends the relation if
                                    * pn_ready is later */
    uint32_t only_own_controller;  /* not 0: a Connect for another controller than its sender is refused, and only calls of the controller
                                    * (its MAC and IP address) keep a relation alive that does not exchange data yet */
    uint32_t records_passed_on;    /* not 0: records that are written while data is exchanged are passed on (pn_passed) and not kept
                                    * (pn_taken): without it a relation accepts 64 records in all */
    uint32_t numbers_go_round;     /* not 0: each relation has the next of 14,336 numbers: the FrameID of its outputs, where the Connect leaves
                                    * the choice to the device (0xFFFF), is 0xC000 plus the number (0x8000 for RT_CLASS_2), and the endpoint of its
                                    * alarms is the number plus 1. So a late frame of an earlier relation is refused */
    uint32_t first_number;         /* with that, the number of the first relation since the start, modulo 65,536: choose another at each start,
                                    * as 1,000 times the number of starts */
    uint32_t reads_not_kept;       /* not 0: the answers to Read Implicit, which any station may call, are not stored: the device stores those of
                                    * four activities only. Each Read Implicit is handled again, also a repeat */
    uint32_t asks_own_first;       /* not 0: a Read or a Write within the relation takes the place of a Read Implicit that is asked of the
                                    * application (pn_asked): that one is refused (resource busy, 0xC2) */
    uint32_t without_services;     /* not 0: the device alone, without the services of its IP address */
    uint32_t module_count;         /* at most PN_MODULES */
    pn_module modules[PN_MODULES];
    uint32_t record_count;         /* at most PN_ASKED_RECORDS. 0: the application answers no records */
    pn_asked_record records[PN_ASKED_RECORDS];
} pn_station;

/* One operation. A host keeps one and reuses it; it needs no initial value. Each field has one meaning, whichever function uses it. A function
 * writes its arguments into those that it reads, and then only those that it sets: every other field keeps its value, and so do the octets
 * after the first `length`.
 *
 *   function                      reads                                   sets
 *   pn_boot                       sector                                  nothing
 *   pn_frame                      nothing                                 note, work, confirmed; with PN_ACKNOWLEDGED status
 *   pn_frame_after                units                                   units, note, work, confirmed; with PN_ACKNOWLEDGED status
 *   pn_tick                       units                                   units, due, note, work, confirmed
 *   pn_input, pn_alarm            slot, subslot                           note, work, confirmed (0); with PN_REFUSED only reason
 *   pn_status                     slot, subslot, is_good                  note, work, confirmed (0); with PN_REFUSED only reason
 *   pn_diagnosis                  slot, subslot, channel, error, appears  note, work, confirmed (0); with PN_REFUSED only reason
 *   pn_ready                      nothing                                 note, work, confirmed (0); with PN_REFUSED only reason
 *   pn_provider_state             nothing                                 note, work, confirmed (0)
 *   pn_pull, pn_plug, pn_ready_at  slot, subslot                          note, work, confirmed (0); with PN_REFUSED only reason
 *   pn_pull_module                slot                                    note, work, confirmed (0); with PN_REFUSED only reason
 *   pn_answer, pn_written, pn_refuse  number                              note, work, confirmed (0); with PN_REFUSED only reason
 *   pn_tell_link                  is_up                                   nothing
 *   pn_next                       nothing                                 work, more, length, data; of a flash call sector and place
 *   pn_carry_out                  work                                    what pn_next sets
 *   pn_lose                       nothing                                 nothing
 *   pn_output                     slot, subslot                           length, octets
 *   pn_provider                   slot, subslot                           iops, data_status
 *   pn_received                   slot, subslot                           length, octets, iops, data_status
 *   pn_state, pn_parameters_end   nothing                                 phase, lamp
 *   pn_due                        nothing                                 due
 *   pn_left                       nothing                                 commits
 *   pn_conflicts, pn_passed_on    nothing                                 count
 *   pn_taken, pn_passed           number                                  slot, subslot, index, length, octets
 *   pn_expected                   number                                  slot, subslot, progress
 *   pn_asked                      nothing                                 number, slot, subslot, index, wanted; of a Read read_length, of a
 *                                                                         Write length, octets
 *   pn_running, pn_stored         nothing                                 length, octets
 *
 * nandutable_controller.h has those of a controller and of a tool. */
typedef struct pn_op {
    uint32_t what;           /* enum pn_what; the functions below set it */
    uint32_t slot;           /* of a submodule: 0 to 65,535 */
    uint32_t subslot;        /* of a submodule: 0 to 65,535 */
    uint32_t index;          /* of a record: 0 to 65,535 */
    uint32_t number;         /* the place of an item in a list, from 0 on; of what is asked of the application its number, from 1 on */
    uint32_t channel;        /* ChannelNumber of a diagnosis: 0 to 0x7FFF, or 0x8000 for the submodule itself */
    uint32_t error;          /* ChannelErrorType of a diagnosis: 1 to 0xFFFF */
    uint32_t appears;        /* 0: the diagnosis disappears */
    uint32_t is_good;        /* 0: the data of the submodule is bad */
    uint32_t is_up;          /* 0: the link is down */
    uint32_t is_low;         /* 0: the priority of the alarm is high */
    uint32_t units;          /* units of time (PN_UNIT_NS): how many pass, and then how many remain */
    uint32_t due;            /* units of time until something is due: at least 1; 4,294,967,295 if nothing ever is */
    uint32_t note;           /* enum pn_note: the result of an event */
    uint32_t reason;         /* enum pn_reason: why the device refused an event */
    uint32_t phase;          /* enum pn_phase; of a controller enum pn_controller_phase, of a place of its plan enum pn_known */
    uint32_t cause;          /* enum pn_cause: why a controller ended; 0 if it did not */
    uint32_t lamp;           /* units of time for which the lamp still flashes */
    uint32_t iops;           /* IOPS of the data of a submodule: an octet, PN_IOPS_GOOD if it is good */
    uint32_t data_status;    /* DataStatus of the frame that it came in: an octet, with the bit PN_PROVIDER_RUNS */
    uint32_t count;          /* how many there are of what the function counts */
    uint32_t left_out;       /* how many diagnoses the list of a controller had no room for */
    uint32_t commits;        /* how many commits the flash still accepts */
    uint32_t status;         /* PNIOStatus of an answer or of an AlarmAck, ErrorCode first (0xDF80B200); 0 if the request or the alarm succeeded */
    uint32_t block_error;    /* BlockError of an answer of DCP; 0 if the request succeeded */
    uint32_t alarm_type;     /* AlarmType of an alarm */
    uint32_t specifier;      /* AlarmSpecifier of an alarm */
    uint32_t structure;      /* UserStructureIdentifier of an alarm; 65,536 if it has none */
    uint32_t sequence;       /* SendSeqNum of an alarm */
    uint32_t confirmed;      /* enum pn_confirmed: what became of the open alarm of a device in an event */
    uint32_t progress;       /* enum pn_progress: how far a place of the relation is */
    uint32_t wanted;         /* enum pn_wanted: what is wanted of a record that the application answers */
    uint32_t read_length;    /* RecordDataLength of a Read: of more octets only that many are sent. It may be more than PN_RECORD_SIZE */
    uint32_t port_length;    /* octets of the PortID of a neighbour: at most 255 */
    uint32_t chassis_length; /* octets of the ChassisID of a neighbour: at most 255 */
    uint32_t work;           /* enum pn_work: after an event the next piece of work, after pn_next the one that it handed out */
    uint32_t more;           /* enum pn_work: after pn_next the piece of work after the one that it handed out */
    uint32_t sector;         /* a sector of the flash: 0 or 1 */
    uint32_t place;          /* the first octet of a program call in its sector: 0 to 4,095 */
    uint32_t length;         /* how many octets are handed out: of `octets`, or after pn_next those at `data` */
    uint8_t octets[PN_OP_SIZE];
    const uint8_t *data;     /* pn_next: the octets of the piece of work, in the memory of the device */
} pn_op;

/* `made` of a pn_device or a pn_controller that was made, and while a call with it runs. */
#define PN_MADE 0x6D616465u
#define PN_CALLED 0x63616C6Cu

/* The memory of a device. Only the library and the functions below use its contents. */
typedef struct pn_device {
#if defined(__cplusplus)
    alignas(16) unsigned char room[PN_DEVICE_SIZE];
#else
    _Alignas(16) unsigned char room[PN_DEVICE_SIZE];
#endif
    uint32_t made; /* PN_MADE once pn_make has returned PN_OK, and PN_CALLED while a call runs */
} pn_device;

/* GCC and Clang compare and exchange a word in one operation, for each processor that can. Elsewhere (another compiler, a Cortex-M0) `made` is
 * read and then written: this still notices each call of an interrupt, and nearly each one of a second thread. Define PN_NO_ATOMICS for a
 * processor that has the instructions and memory in which they never succeed: a Cortex-A whose MMU is off. */
#if defined(__GNUC__) && defined(__GCC_HAVE_SYNC_COMPARE_AND_SWAP_4) && !defined(PN_NO_ATOMICS)
#define PN_HAS_ATOMICS 1
#else
#define PN_HAS_ATOMICS 0
#endif

/* Begins a call with a device or a controller that was made. Returns PN_OK, PN_NOT_MADE or PN_IN_CALL; after PN_OK pn_leave ends the call. */
static inline uint32_t pn_enter(uint32_t *made)
{
#if PN_HAS_ATOMICS
    uint32_t was = PN_MADE;
    if (__atomic_compare_exchange_n(made, &was, PN_CALLED, 0, __ATOMIC_ACQUIRE, __ATOMIC_RELAXED))
        return PN_OK;
#else
    volatile uint32_t *word = made;
    uint32_t was = *word;
    if (was == PN_MADE) {
        *word = PN_CALLED;
        return PN_OK;
    }
#endif
    return was == PN_CALLED ? (uint32_t)PN_IN_CALL : (uint32_t)PN_NOT_MADE;
}

/* Begins a call that makes a device or a controller, whatever its memory holds: `*was` is what `made` was. Returns PN_OK or PN_IN_CALL. */
static inline uint32_t pn_enter_new(uint32_t *made, uint32_t *was)
{
#if PN_HAS_ATOMICS
    *was = __atomic_exchange_n(made, PN_CALLED, __ATOMIC_ACQUIRE);
#else
    volatile uint32_t *word = made;
    *was = *word;
    *word = PN_CALLED;
#endif
    return *was == PN_CALLED ? (uint32_t)PN_IN_CALL : (uint32_t)PN_OK;
}

/* Ends a call: `made` is this from now on. */
static inline void pn_leave(uint32_t *made, uint32_t now)
{
#if PN_HAS_ATOMICS
    __atomic_store_n(made, now, __ATOMIC_RELEASE);
#else
    *(volatile uint32_t *)made = now;
#endif
}

/* The sizes that the library was built with. */
#if defined(__cplusplus)
static_assert(offsetof(pn_op, octets) + PN_OP_SIZE == PN_OP_LENGTH && sizeof(pn_station) == 1732, "another layout than the library's");
#else
_Static_assert(offsetof(pn_op, octets) + PN_OP_SIZE == PN_OP_LENGTH && sizeof(pn_station) == 1732, "another layout than the library's");
#endif

/* The settings that survive a power failure. */
typedef struct pn_settings {
    uint8_t address[4]; /* all three are zeros if there is no address */
    uint8_t mask[4];
    uint8_t gateway[4];
    uint8_t im1[54]; /* I&M texts: function and location, date, descriptor, signature */
    uint8_t im2[16];
    uint8_t im3[54];
    uint8_t im4[54];
    uint8_t name[240];
    uint32_t name_length; /* 0: no name */
} pn_settings;

/* --- The four calls of the library. Use the functions below them. ---
 *
 * pn_judge returns why no device can be made from a station in a room of `size` octets, or PN_OK if one can be made.
 * pn_put puts a device that is not booted into the room and overwrites its contents. Call it only with a station for which pn_judge
 * returned PN_OK, and a room of PN_DEVICE_SIZE octets whose address is a multiple of 16.
 * pn_step executes one operation on a room into which pn_put put a device and that only these calls changed since. `given` are the
 * octets of a frame, an input, an alarm or a sector.
 * pn_fetch hands out the next piece of work of such a room. `*answer` is PN_OK, or why nothing was handed out; `*octets` is the place in
 * the room where the octets of the piece lie, which C may read and not write until the next of these calls with this room.
 * Pointers must not be NULL, even if the length is 0. The operation, `given`, the station and the room must not overlap. One call with a room
 * returns before the next one with it begins: the functions below see to that, and these four do not. */
uint32_t pn_judge(size_t size, uint32_t abi, size_t op_size, const pn_station *station);
void pn_put(void *room, const pn_station *station);
uint32_t pn_step(void *room, pn_op *op, const uint8_t *given, size_t length);
void pn_fetch(void *room, pn_op *op, uint32_t *answer, const uint8_t **octets);

/* --- A start --- */

/* Makes a device from this station in a room of `size` octets. `abi` is the version of the caller's header, `op_size` the size of its
 * operation. It does not set `made` of a pn_device, and does not notice another call: for a room elsewhere call pn_step.
 * May return PN_NULL, PN_BAD_ABI, PN_SMALL_ROOM, PN_BAD_STATION, PN_BAD_MAC to PN_BAD_OPTION, and PN_BAD_RECORD. */
static inline uint32_t pn_device_make(void *room, size_t size, uint32_t abi, size_t op_size, const pn_station *station)
{
    uint32_t answer;
    if (room == NULL || station == NULL)
        return PN_NULL;
    if ((uintptr_t)room % 16 != 0)
        return PN_SMALL_ROOM;
    answer = pn_judge(size, abi, op_size, station);
    if (answer == PN_OK)
        pn_put(room, station);
    return answer;
}

/* Makes a device from this station, and copies the station. Call it first; a device that is made again forgets everything. Of several
 * faults of a station it returns the first of: PN_BAD_STATION, PN_BAD_MAC, PN_BAD_SLOT, PN_BAD_SUBSLOT, PN_BAD_DATA, PN_BAD_PARAMETER,
 * PN_BAD_OPTION, PN_BAD_RECORD. May also return PN_NULL, PN_BAD_ABI, PN_SMALL_ROOM, PN_IN_CALL. */
static inline uint32_t pn_make(pn_device *device, const pn_station *station)
{
    uint32_t answer, was;
    if (device == NULL)
        return PN_NULL;
    if (pn_enter_new(&device->made, &was) != PN_OK)
        return PN_IN_CALL;
    answer = pn_device_make(device->room, sizeof device->room, PN_ABI, PN_OP_LENGTH, station);
    pn_leave(&device->made, answer == PN_OK ? PN_MADE : was);
    return answer;
}

/* One operation, with the octets `given`; NULL if there are none. */
static inline uint32_t pn_ask(pn_device *device, pn_op *op, uint32_t what, const uint8_t *given, size_t length)
{
    static const uint8_t none[1] = {0};
    uint32_t answer;
    if (device == NULL || op == NULL || (given == NULL && length != 0))
        return PN_NULL;
    answer = pn_enter(&device->made);
    if (answer != PN_OK)
        return answer;
    op->what = what;
    answer = pn_step(device->room, op, given == NULL ? none : given, length);
    pn_leave(&device->made, PN_MADE);
    return answer;
}

/* One operation that changes nothing in the device. */
static inline uint32_t pn_read(const pn_device *device, pn_op *op, uint32_t what)
{
    return pn_ask((pn_device *)(uintptr_t)device, op, what, NULL, 0);
}

/* Starts a device from the present contents of both sectors of the chip, and writes nothing. pn_make made the device before. It has no
 * relation yet and sends nothing by itself. On a chip that was never written both sectors are all ones. After PN_FOREIGN the chip is
 * unchanged, and the device may be booted from other sectors.
 * May return PN_NULL, PN_NOT_MADE, PN_IN_CALL, PN_IS_BOOTED, PN_LOST, PN_FOREIGN. After PN_IN_CALL one of the sectors may be there already: call
 * it again. */
static inline uint32_t pn_boot(pn_device *device, pn_op *op, const uint8_t first[PN_SECTOR_SIZE], const uint8_t second[PN_SECTOR_SIZE])
{
    uint32_t answer;
    if (device == NULL || op == NULL || first == NULL || second == NULL)
        return PN_NULL;
    op->sector = 0;
    answer = pn_ask(device, op, PN_OP_SECTOR, first, PN_SECTOR_SIZE);
    if (answer != PN_OK)
        return answer;
    op->sector = 1;
    answer = pn_ask(device, op, PN_OP_SECTOR, second, PN_SECTOR_SIZE);
    if (answer != PN_OK)
        return answer;
    return pn_ask(device, op, PN_OP_BOOT, NULL, 0);
}

/* --- Events. Each needs a booted device without remaining work, and sets `note`, `work` and `confirmed`. If `work` is not PN_NOTHING, call
 * pn_carry_out, or pn_next while work remains: neither changes `confirmed`. One event sends at most six frames. ---
 * They may return PN_NULL, PN_NOT_MADE, PN_IN_CALL, PN_NOT_BOOTED, PN_LOST, PN_HAS_WORK, and what each names. After such a number nothing was done:
 * `units` of pn_tick, for one, is still the number that was handed in. A loop must end on it. What the application says (pn_input, pn_alarm,
 * pn_status, pn_diagnosis, pn_ready, pn_pull, pn_pull_module, pn_plug, pn_ready_at, pn_answer, pn_written, pn_refuse) may be refused:
 * PN_REFUSED, with `reason`. Then nothing changed, and no work remains. */

/* Hands in a received frame: its octets from the destination address on, without the check sequence. They are only read during the call.
 * The interface must accept the device's address, the broadcast address, the group address 01-0E-CF-00-00-00, and for LLDP
 * 01-80-C2-00-00-0E. */
static inline uint32_t pn_frame(pn_device *device, pn_op *op, const uint8_t *octets, size_t length)
{
    return pn_ask(device, op, PN_OP_FRAME, octets, length);
}

/* The same of a frame before which `units` units of time have passed, in one call in place of pn_tick and pn_frame. As many of them as bring nothing pass
 * first, so that the timers that the frame starts begin with its own time. `units` of the operation is then the number that remain, for the next
 * pn_tick: those from the next one on that brings something, or all of them if its neighbour is not yet reported to the device. Do not hand in
 * more than one less than pn_due or the last pn_tick returned, and none remain. */
static inline uint32_t pn_frame_after(pn_device *device, pn_op *op, uint32_t units, const uint8_t *octets, size_t length)
{
    if (op == NULL)
        return PN_NULL;
    op->units = units;
    return pn_ask(device, op, PN_OP_FRAME_AFTER, octets, length);
}

/* `units` units of time have passed (PN_UNIT_NS each; 0 is allowed). It stops after a unit that sends something: then `units` of the
 * operation is the remaining number, and `note` is PN_DONE. Take the work, and hand in the rest again. Units with which nothing is due
 * pass at once, however many they are (pn_due). Sets `due` to what pn_due returns, valid until the next event, so that a host can arm its
 * timer by it. A call with 0 units sets it too. */
static inline uint32_t pn_tick(pn_device *device, pn_op *op, uint32_t units)
{
    if (op == NULL)
        return PN_NULL;
    op->units = units;
    return pn_ask(device, op, PN_OP_TICK, NULL, 0);
}

/* The application sets the input of a submodule; the cyclic frames contain it from now on. `length` is the length of the submodule's input,
 * 1 to 1,439. A Connect may expect another length of it: the device accepts it and exchanges data, but refuses each pn_input of the submodule with
 * PN_WHY_NO_PLACE, and the controller gets zeros. So report this reason (the plan does not fit the station), and set `inputs_begin_bad`: without it
 * the IOPS of these zeros is good. After a new Connect inputs are zeros until they are set, and so is that of a submodule after a pull or a plug in its place. May
 * return PN_REFUSED: PN_WHY_NOT_PLUGGED, PN_WHY_BAD_LENGTH, PN_WHY_NO_RELATION, PN_WHY_NO_PLACE. */
static inline uint32_t pn_input(pn_device *device, pn_op *op, uint16_t slot, uint16_t subslot, const uint8_t *octets, size_t length)
{
    if (op == NULL)
        return PN_NULL;
    op->slot = slot;
    op->subslot = subslot;
    return pn_ask(device, op, PN_OP_INPUT, octets, length);
}

/* The application raises a process alarm of a submodule, with at most 32 octets, while data is exchanged and after the previous alarm is
 * over. A later pn_frame, pn_frame_after or pn_tick reports what became of it, once (`confirmed`); after pn_lose and pn_make nothing does.
 * May return PN_REFUSED: PN_WHY_NOT_PLUGGED, PN_WHY_BAD_LENGTH, PN_WHY_NO_RELATION, PN_WHY_NO_EXCHANGE, PN_WHY_ALARM_OPEN. */
static inline uint32_t pn_alarm(pn_device *device, pn_op *op, uint16_t slot, uint16_t subslot, const uint8_t *octets, size_t length)
{
    if (op == NULL)
        return PN_NULL;
    op->slot = slot;
    op->subslot = subslot;
    return pn_ask(device, op, PN_OP_ALARM, octets, length);
}

/* The application says whether the inputs of a submodule are good (for a submodule without inputs: the submodule itself): its IOPS in the cyclic frames.
 * Good at first; kept until it is said again, also over relations, and forgotten at a start and as the submodule is pulled. A sensor that fails:
 * its inputs stay as they are, and their status is bad. With `inputs_begin_bad` the IOPS is good if the status is good and an input was given in
 * this relation. For a submodule with only an output the status is accepted, but no frame contains it. May return PN_REFUSED: PN_WHY_NOT_PLUGGED. */
static inline uint32_t pn_status(pn_device *device, pn_op *op, uint16_t slot, uint16_t subslot, int is_good)
{
    if (op == NULL)
        return PN_NULL;
    op->slot = slot;
    op->subslot = subslot;
    op->is_good = is_good != 0;
    return pn_ask(device, op, PN_OP_STATUS, NULL, 0);
}

/* A diagnosis of a submodule appears or disappears: of a channel, 0 to 0x7FFF, or 0x8000 for the submodule itself, and with this
 * ChannelErrorType, 1 to 0xFFFF (IEC 61158-6-10: 1 is a short circuit, 6 a line break). While data is exchanged the controller gets an alarm
 * of low priority, and while a submodule of the relation has a diagnosis, the problem bit of the cyclic frames tells it. It is kept over
 * relations, and forgotten at a start and as the submodule is pulled. At most 32 exist. May return PN_REFUSED: PN_WHY_NOT_PLUGGED,
 * PN_WHY_BAD_NUMBER; if it appears PN_WHY_EXISTS, PN_WHY_FULL; if it disappears PN_WHY_ABSENT; PN_WHY_CHANGES_WAIT. */
static inline uint32_t pn_diagnosis(pn_device *device, pn_op *op, uint16_t slot, uint16_t subslot, uint16_t channel, uint16_t error,
                                    int appears)
{
    if (op == NULL)
        return PN_NULL;
    op->slot = slot;
    op->subslot = subslot;
    op->channel = channel;
    op->error = error;
    op->appears = appears != 0;
    return pn_ask(device, op, PN_OP_DIAGNOSIS, NULL, 0);
}

/* The application of a station with `ready_by_application` has applied its parameters: ApplicationReady is sent. Once in each relation, after
 * PrmEnd (pn_parameters_end). If the relation ends while records are applied (PN_NEW_PHASE with PN_NONE), forget them and this call: otherwise it
 * says of the next relation that it is ready. May return PN_REFUSED: PN_WHY_NO_RELATION, PN_WHY_TOO_EARLY, PN_WHY_TOO_LATE. */
static inline uint32_t pn_ready(pn_device *device, pn_op *op)
{
    return pn_ask(device, op, PN_OP_READY, NULL, 0);
}

/* The application stops, with all its inputs, or runs again. While it is stopped, ProviderState (bit 4 of DataStatus) is 0 in each cyclic
 * frame; the values and their statuses stay as they are. It runs at first; a stop is kept over relations, and forgotten at a start. It is
 * never refused. */
static inline uint32_t pn_provider_state(pn_device *device, pn_op *op, int is_running)
{
    return pn_ask(device, op, is_running != 0 ? PN_OP_RUN : PN_OP_STOP, NULL, 0);
}

/* --- Modules that come and go while the device runs. Call these functions at any time, also without a relation. What is plugged then stays
 * over relations and is not stored: a device that is made and booted again has the modules of its station. In a relation that expects the
 * submodule, the controller gets an alarm of low priority (Pull, Plug or Plug Wrong Submodule; IEC 61158-6-10), and the data of the place is not
 * valid until it has parametrized what was plugged (pn_expected). Slot 0, the access point, stays as it is. --- */

/* The submodule in this slot and subslot was pulled. Its module stays, also without submodules. With a submodule go its diagnoses and its
 * status. May return PN_REFUSED: PN_WHY_ACCESS_POINT, PN_WHY_NOT_PLUGGED, PN_WHY_CHANGES_WAIT. */
static inline uint32_t pn_pull(pn_device *device, pn_op *op, uint16_t slot, uint16_t subslot)
{
    if (op == NULL)
        return PN_NULL;
    op->slot = slot;
    op->subslot = subslot;
    return pn_ask(device, op, PN_OP_PULL, NULL, 0);
}

/* The module in this slot was pulled, with all its submodules. May return PN_REFUSED: PN_WHY_ACCESS_POINT, PN_WHY_NOT_PLUGGED,
 * PN_WHY_CHANGES_WAIT. */
static inline uint32_t pn_pull_module(pn_device *device, pn_op *op, uint16_t slot)
{
    if (op == NULL)
        return PN_NULL;
    op->slot = slot;
    return pn_ask(device, op, PN_OP_PULL_MODULE, NULL, 0);
}

/* Writes a number of `count` octets, the highest first. */
static inline void pn_put_number(uint8_t *octets, uint32_t number, size_t count)
{
    while (count-- > 0) {
        octets[count] = (uint8_t)number;
        number >>= 8;
    }
}

/* This submodule was plugged into this slot, 1 to 15. If the slot was empty, a module with this ident number, not 0, was plugged with it; if
 * not, it is that of the module. A submodule has at most 1,440 octets of input and of output, of which a cyclic frame
 * can carry 1,439, the most that pn_make accepts; and the parameter records of a station. Its inputs are zeros until pn_input, in a relation that
 * expects it.
 * May return PN_BAD_LENGTH (more than PN_PARAMETERS records); PN_REFUSED: PN_WHY_ACCESS_POINT, PN_WHY_OTHER_MODULE, PN_WHY_PLUGGED,
 * PN_WHY_NO_ROOM, PN_WHY_BAD_SUBMODULE, PN_WHY_CHANGES_WAIT. */
static inline uint32_t pn_plug(pn_device *device, pn_op *op, uint16_t slot, uint32_t module_ident, const pn_submodule *submodule)
{
    uint8_t octets[12 + 4 * PN_PARAMETERS];
    size_t length = 12;
    if (op == NULL || submodule == NULL)
        return PN_NULL;
    if (submodule->parameter_count > PN_PARAMETERS)
        return PN_BAD_LENGTH;
    pn_put_number(octets, module_ident, 4);
    pn_put_number(octets + 4, submodule->ident, 4);
    pn_put_number(octets + 8, submodule->input, 2);
    pn_put_number(octets + 10, submodule->output, 2);
    for (uint16_t i = 0; i < submodule->parameter_count; i++, length += 4) {
        pn_put_number(octets + length, submodule->parameters[i].index, 2);
        pn_put_number(octets + length + 2, submodule->parameters[i].length, 2);
    }
    op->slot = slot;
    op->subslot = submodule->subslot;
    return pn_ask(device, op, PN_OP_PLUG, octets, length);
}

/* The application of a station with `ready_by_application` has applied the parameters of the submodule that was plugged there:
 * ApplicationReady for the plug is sent, or waits for one before it. Once for each plug, when its place is PN_PLACE_ENDED (pn_expected).
 * May return PN_REFUSED: PN_WHY_NO_RELATION, PN_WHY_NO_PLUG, PN_WHY_TOO_EARLY, PN_WHY_TOO_LATE. */
static inline uint32_t pn_ready_at(pn_device *device, pn_op *op, uint16_t slot, uint16_t subslot)
{
    if (op == NULL)
        return PN_NULL;
    op->slot = slot;
    op->subslot = subslot;
    return pn_ask(device, op, PN_OP_READY_AT, NULL, 0);
}

/* --- Records that the application answers: `records` of the station. A call of a controller for one of them is asked of the application
 * (PN_NEW_ASKED of pn_news, pn_asked), one at a time. The answer makes the response to the call: it is the work of the event. Answer soon: a
 * controller waits some seconds, and a call without an answer after 64,000 units of time, two seconds, is refused by the device (busy,
 * ErrorCode1 0xA7). While one is asked, another call for such a record is refused (resource busy, 0xC2), and so is the entry for such a record in a
 * list of Writes (index 0xE040; feature not supported, 0xA9). With `asks_own_first` a call of the relation takes the place of a Read Implicit that is
 * asked: that one is refused, and the call gets the next number. What is asked is dropped without a response when its relation ends, when its submodule
 * is pulled, and at a start; pn_news reports none of these. At a start the numbers begin with 1 again. --- */

/* The octets of the record are the answer to the Read with this number (pn_asked): at most its greatest length. Of more octets than
 * `read_length` only the first ones are sent.
 * May return PN_REFUSED: PN_WHY_NOT_ASKED, PN_WHY_OTHER_KIND, PN_WHY_BAD_LENGTH. */
static inline uint32_t pn_answer(pn_device *device, pn_op *op, uint32_t number, const uint8_t *octets, size_t length)
{
    if (op == NULL)
        return PN_NULL;
    op->number = number;
    return pn_ask(device, op, PN_OP_ANSWER, octets, length);
}

/* The Write with this number is done: its octets are written. May return PN_REFUSED: PN_WHY_NOT_ASKED, PN_WHY_OTHER_KIND. */
static inline uint32_t pn_written(pn_device *device, pn_op *op, uint32_t number)
{
    if (op == NULL)
        return PN_NULL;
    op->number = number;
    return pn_ask(device, op, PN_OP_WRITTEN, NULL, 0);
}

/* The Read or Write with this number is refused: its PNIOStatus is DE (of a Read) or DF (of a Write), 80, `code1` and `code2`. ErrorCode1 of an
 * application is 0xA0 to 0xAF (IEC 61158-6-10: 0xA0 read error, 0xA1 write error, 0xA9 feature not supported, 0xAA to 0xAF user specific);
 * ErrorCode2 is its own.
 * May return PN_REFUSED: PN_WHY_NOT_ASKED, PN_WHY_BAD_CODE. */
static inline uint32_t pn_refuse(pn_device *device, pn_op *op, uint32_t number, uint8_t code1, uint8_t code2)
{
    uint8_t octets[2];
    if (op == NULL)
        return PN_NULL;
    op->number = number;
    octets[0] = code1;
    octets[1] = code2;
    return pn_ask(device, op, PN_OP_REFUSE, octets, sizeof octets);
}

/* What the host knows of the link, for the LLDP of the device. */
typedef struct pn_link {
    uint8_t support;     /* PN_AUTONEG_SUPPORTED, PN_AUTONEG_ENABLED */
    uint16_t capability; /* what is advertised: the bits of ifAutoNegCapAdvertised, 0x0400 for 100BASE-TX in full duplex */
    uint16_t mau_type;   /* dot3MauType: 16 for 100BASE-TX in full duplex, 30 for 1000BASE-T */
} pn_link;

#define PN_AUTONEG_SUPPORTED 1u
#define PN_AUTONEG_ENABLED 2u

/* What the host knows of the link: whether it is up, and which link it is; NULL if it does not know that, and then LLDP does not tell it.
 * While the link is down no LLDP is sent. Without this call, and after each pn_boot, the link is up and not known. It needs a booted device,
 * with or without remaining work, makes none, and changes neither `note` nor `work`. The same values again change nothing.
 * May return PN_NULL, PN_NOT_MADE, PN_IN_CALL, PN_NOT_BOOTED, PN_LOST. */
static inline uint32_t pn_tell_link(pn_device *device, pn_op *op, int is_up, const pn_link *link)
{
    uint8_t octets[5];
    if (op == NULL)
        return PN_NULL;
    op->is_up = is_up != 0;
    if (link == NULL)
        return pn_ask(device, op, PN_OP_LINK, NULL, 0);
    octets[0] = link->support;
    octets[1] = (uint8_t)(link->capability >> 8);
    octets[2] = (uint8_t)link->capability;
    octets[3] = (uint8_t)(link->mau_type >> 8);
    octets[4] = (uint8_t)link->mau_type;
    return pn_ask(device, op, PN_OP_LINK, octets, sizeof octets);
}

/* --- Work --- */

/* Hands out the next piece of work of the last event, each once: the flash calls in their order, then the frames. Sets `work`, and what
 * belongs to it: `sector`, `place`, `length` and `data` of PN_PROGRAM, `sector` of PN_ERASE, `length` and `data` of PN_SEND; `length`
 * is 0 with PN_ERASE and PN_NOTHING. Sets `more` to the kind of the piece after it; if `more` is PN_NOTHING no work
 * remains, and the next event is accepted without another pn_next. After an event and before pn_next use `work`: `more` is old.
 * The octets at `data` lie in the memory of the device and are not copied. Read them, do not write them, and copy what is needed longer:
 * they are valid until the next call of any function with this device. Do not use `data` if `length` is 0.
 * May return PN_NULL, PN_NOT_MADE, PN_IN_CALL, PN_NOT_BOOTED, PN_LOST. */
static inline uint32_t pn_next(pn_device *device, pn_op *op)
{
    uint32_t answer;
    const uint8_t *octets;
    if (device == NULL || op == NULL)
        return PN_NULL;
    answer = pn_enter(&device->made);
    if (answer != PN_OK)
        return answer;
    pn_fetch(device->room, op, &answer, &octets);
    pn_leave(&device->made, PN_MADE);
    if (answer == PN_OK)
        op->data = octets;
    return answer;
}

/* What a host does for a device. Each function returns 0 on success. `program` and `erase` return when the chip holds the requested
 * contents durably, so that they survive a power failure; `program` only turns ones to zeros, and stays within one sector.
 *
 * pn_carry_out calls them in the middle of a step. They may not hand an event to this device, and they may not use the operation. The octets
 * that they are given lie in the memory of the device: when they are no longer needed, the functions that read the device may be called,
 * with another operation. All functions of another device and of a controller may be called. A card that reads a frame after
 * `send` has returned (DMA) needs a copy of it. A frame that comes meanwhile waits until pn_carry_out returns. */
typedef struct pn_host {
    void *context;
    int (*program)(void *context, uint32_t sector, uint32_t place, const uint8_t *octets, uint32_t length);
    int (*erase)(void *context, uint32_t sector);
    int (*send)(void *context, const uint8_t *octets, uint32_t length);
} pn_host;

/* A flash call failed on the host's side. This counts as lost power: the remaining work is dropped, and every call except pn_make returns
 * PN_LOST from now on. pn_carry_out makes this call by itself. May return PN_NULL, PN_NOT_MADE, PN_IN_CALL, PN_NOT_BOOTED, PN_LOST. */
static inline uint32_t pn_lose(pn_device *device, pn_op *op)
{
    return pn_ask(device, op, PN_OP_LOSE, NULL, 0);
}

/* The same, after a call that failed. */
static inline uint32_t pn_failed(pn_device *device, pn_op *op)
{
    uint32_t answer = pn_lose(device, op);
    return answer == PN_OK ? (uint32_t)PN_FLASH_FAULT : answer;
}

/* Takes all work of an event and does it, with the operation of the event. It does nothing if `work` of the operation is PN_NOTHING, and
 * sets it to PN_NOTHING when all work is done. May return PN_NULL (also for a function of `host`), PN_NOT_MADE, PN_IN_CALL, PN_NOT_BOOTED,
 * PN_FLASH_FAULT (nothing more is done; make and boot the device again), PN_LOST, PN_NOT_SENT (a frame was lost, as it could be on the
 * wire; there is no other effect). */
static inline uint32_t pn_carry_out(pn_device *device, pn_op *op, const pn_host *host)
{
    uint32_t answer, sent = PN_OK;
    if (device == NULL || op == NULL || host == NULL || host->program == NULL || host->erase == NULL || host->send == NULL)
        return PN_NULL;
    for (; op->work != PN_NOTHING; op->work = op->more) {
        answer = pn_next(device, op);
        if (answer != PN_OK)
            return answer;
        switch (op->work) {
        case PN_PROGRAM:
            if (host->program(host->context, op->sector, op->place, op->data, op->length) != 0)
                return pn_failed(device, op);
            break;
        case PN_ERASE:
            if (host->erase(host->context, op->sector) != 0)
                return pn_failed(device, op);
            break;
        case PN_SEND:
            if (host->send(host->context, op->data, op->length) != 0)
                sent = PN_NOT_SENT;
            break;
        default:
            return sent;
        }
    }
    return sent;
}

/* --- Reading a device. Each function needs a booted device, with or without remaining work, and changes nothing in it. They may return
 * PN_NULL, PN_NOT_MADE, PN_IN_CALL, PN_NOT_BOOTED, PN_LOST, and what each names. --- */

/* The output of a submodule, in `length` and `octets`: its value in the last accepted cyclic frame. Zeros if no frame was accepted yet, if
 * its IOPS is not GOOD, after a pull or a plug in its place until this is PN_PLACE_GOOD again (pn_expected), or without a relation. It has values
 * as soon as the controller sends data, which is before ApplicationReady and so before pn_ready; and also while the controller is stopped, if their
 * IOPS stays good. So look at the phase and at pn_provider before you use them. May return PN_NO_SLOT. */
static inline uint32_t pn_output(const pn_device *device, pn_op *op, uint16_t slot, uint16_t subslot)
{
    if (op == NULL)
        return PN_NULL;
    op->slot = slot;
    op->subslot = subslot;
    return pn_read(device, op, PN_OP_OUTPUT);
}

/* What the controller says of the output of a submodule in its last accepted frame: its IOPS, and the frame's DataStatus. Bit 4 of DataStatus
 * (0x10) is clear while the controller is stopped. Both come with an output, so a device without outputs does not learn whether its controller
 * runs. May return PN_NO_FRAME: there is no relation, the output has no place in it, or no frame was accepted yet. */
#define PN_IOPS_GOOD 0x80u
#define PN_PROVIDER_RUNS 0x10u
static inline uint32_t pn_provider(const pn_device *device, pn_op *op, uint16_t slot, uint16_t subslot, uint8_t *iops, uint8_t *data_status)
{
    uint32_t answer;
    if (op == NULL || iops == NULL || data_status == NULL)
        return PN_NULL;
    op->slot = slot;
    op->subslot = subslot;
    answer = pn_read(device, op, PN_OP_PROVIDER);
    if (answer == PN_OK) {
        *iops = (uint8_t)op->iops;
        *data_status = (uint8_t)op->data_status;
    }
    return answer;
}

/* The output of a submodule in the last accepted cyclic frame, in `length` and `octets`, and what the controller says of it, as pn_provider: pn_output and
 * pn_provider in one call. `length` is what the Connect expects, which may be another than the station has: compare it before you use the octets. Those
 * after it are old ones of the operation. The same of pn_output. pn_received_exactly compares it. May return PN_NO_FRAME. */
static inline uint32_t pn_received(const pn_device *device, pn_op *op, uint16_t slot, uint16_t subslot, uint8_t *iops, uint8_t *data_status)
{
    uint32_t answer;
    if (op == NULL || iops == NULL || data_status == NULL)
        return PN_NULL;
    op->slot = slot;
    op->subslot = subslot;
    answer = pn_read(device, op, PN_OP_RECEIVED);
    if (answer == PN_OK) {
        *iops = (uint8_t)op->iops;
        *data_status = (uint8_t)op->data_status;
    }
    return answer;
}

/* pn_received of an output that has `length` octets at the station. If the Connect expects another length this returns PN_BAD_LENGTH, with that length
 * in the operation: the plan does not fit the station. So no old octets are used as the output's. */
static inline uint32_t pn_received_exactly(const pn_device *device, pn_op *op, uint16_t slot, uint16_t subslot, uint32_t length, uint8_t *iops,
                                           uint8_t *data_status)
{
    uint32_t answer = pn_received(device, op, slot, subslot, iops, data_status);
    if (answer == PN_OK && op->length != length)
        return PN_BAD_LENGTH;
    return answer;
}

/* How many units may pass until something is due: with the last of them, and with none before it, the device or its services send a frame, or
 * it gives up an alarm, ends the relation, or turns the lamp off. It is at least 1, and also in `due` of the operation. 4,294,967,295 if no unit ever does any of these.
 * An event may change it. So a host sleeps until that unit is over, or until the next event. */
static inline uint32_t pn_due(const pn_device *device, pn_op *op, uint32_t *due)
{
    uint32_t answer;
    if (due == NULL)
        return PN_NULL;
    answer = pn_read(device, op, PN_OP_DUE);
    if (answer == PN_OK)
        *due = op->due;
    return answer;
}

/* How many ARP frames came from another station that uses the running IP address, at most 4,294,967,295: also in `count` of the operation.
 * 0 without services. After each of them the device announces its address once more, at most once in 10 seconds. */
static inline uint32_t pn_conflicts(const pn_device *device, pn_op *op, uint32_t *conflicts)
{
    uint32_t answer;
    if (conflicts == NULL)
        return PN_NULL;
    answer = pn_read(device, op, PN_OP_CONFLICTS);
    if (answer == PN_OK)
        *conflicts = op->count;
    return answer;
}

/* What the application relation waits for (`phase`), and the number of units for which the lamp still flashes (`lamp`). */
static inline uint32_t pn_state(const pn_device *device, pn_op *op)
{
    return pn_read(device, op, PN_OP_STATE);
}

/* Whether the relation has accepted PrmEnd, so that its parameter records are complete (`*has_ended`; 0 without a relation). */
static inline uint32_t pn_parameters_end(const pn_device *device, pn_op *op, int *has_ended)
{
    uint32_t answer;
    if (has_ended == NULL)
        return PN_NULL;
    answer = pn_state(device, op);
    if (answer == PN_OK)
        *has_ended = op->phase >= PN_AWAITING;
    return answer;
}

/* A parameter record that the relation accepted, by its number from 0 on, in the order of arrival: `slot`, `subslot`, `index`, and its
 * octets in `length` and `octets`. Those of a place are forgotten as the alarm of a pull or a plug there is sent. May return PN_NO_RECORD. */
static inline uint32_t pn_taken(const pn_device *device, pn_op *op, uint32_t number)
{
    if (op == NULL)
        return PN_NULL;
    op->number = number;
    return pn_read(device, op, PN_OP_RECORD);
}

/* A place of the relation, by its number from 0 on, in the order of the Connect: `slot`, `subslot`, and how far it is (`progress`, enum
 * pn_progress). May return PN_NO_PLACE: there is no place of this number, or no relation. */
static inline uint32_t pn_expected(const pn_device *device, pn_op *op, uint32_t number)
{
    if (op == NULL)
        return PN_NULL;
    op->number = number;
    return pn_read(device, op, PN_OP_EXPECTED);
}

/* What is asked of the application: the record that a call reads or writes (`slot`, `subslot`, `index`), what is wanted (`wanted`, enum
 * pn_wanted), and the `number` that its answer names. Of a Read at most `read_length` octets are sent, and never more than PN_RECORD_SIZE; of a Write the octets are
 * in `length` and `octets`. May return PN_NOT_ASKED: nothing is asked, or no longer. */
static inline uint32_t pn_asked(const pn_device *device, pn_op *op)
{
    return pn_read(device, op, PN_OP_ASKED);
}

/* With `records_passed_on`: how many parameter records were passed on and not kept in the relation, modulo 2^32 (`*count`; 0 without a
 * relation). */
static inline uint32_t pn_passed_on(const pn_device *device, pn_op *op, uint32_t *count)
{
    uint32_t answer;
    if (count == NULL)
        return PN_NULL;
    answer = pn_read(device, op, PN_OP_PASSED_ON);
    if (answer == PN_OK)
        *count = op->count;
    return answer;
}

/* A parameter record that was passed on and not kept, counted back from the last one, which is 0: the last 16 are there, and one Write has
 * at most 16. It is reported as pn_taken reports a record. May return PN_NO_RECORD. */
static inline uint32_t pn_passed(const pn_device *device, pn_op *op, uint32_t back)
{
    if (op == NULL)
        return PN_NULL;
    op->number = back;
    return pn_read(device, op, PN_OP_PASSED);
}

/* Octets of settings before the name, and the longest name. */
#define PN_SETTINGS_SIZE 190u
#define PN_NAME_SIZE 240u

/* The settings in the octets of an operation after pn_running or pn_stored. May return PN_NULL, PN_BAD_LENGTH (its `length` is not one of
 * settings); then `settings` is unchanged. */
static inline uint32_t pn_settings_of(const pn_op *op, pn_settings *settings)
{
    const uint8_t *from;
    if (op == NULL || settings == NULL)
        return PN_NULL;
    if (op->length < PN_SETTINGS_SIZE || op->length > PN_SETTINGS_SIZE + PN_NAME_SIZE)
        return PN_BAD_LENGTH;
    from = op->octets;
    memcpy(settings->address, from, 4);
    memcpy(settings->mask, from + 4, 4);
    memcpy(settings->gateway, from + 8, 4);
    memcpy(settings->im1, from + 12, 54);
    memcpy(settings->im2, from + 66, 16);
    memcpy(settings->im3, from + 82, 54);
    memcpy(settings->im4, from + 136, 54);
    settings->name_length = op->length - PN_SETTINGS_SIZE;
    memset(settings->name, 0, sizeof settings->name);
    memcpy(settings->name, from + PN_SETTINGS_SIZE, settings->name_length);
    return PN_OK;
}

/* The running settings; they are in `length` and `octets` of the operation too. */
static inline uint32_t pn_running(const pn_device *device, pn_op *op, pn_settings *settings)
{
    uint32_t answer;
    if (settings == NULL)
        return PN_NULL;
    answer = pn_read(device, op, PN_OP_RUNNING);
    return answer == PN_OK ? pn_settings_of(op, settings) : answer;
}

/* The settings that a restart finds, once all work has been fetched and done. */
static inline uint32_t pn_stored(const pn_device *device, pn_op *op, pn_settings *settings)
{
    uint32_t answer;
    if (settings == NULL)
        return PN_NULL;
    answer = pn_read(device, op, PN_OP_STORED);
    return answer == PN_OK ? pn_settings_of(op, settings) : answer;
}

/* How many commits the flash still accepts once all work has been fetched and done (`commits` of the operation): that many further commands
 * that change settings are accepted. At 0 each is refused, and the device continues with its present settings. A Set is a commit also if the
 * device has the value already, or if it is temporary. A host that limits the rate of commits counts the difference over a frame: a list of I&M
 * records stores up to 16. The number is that of the format: each sector is erased once in 30 commits, and the chip may endure fewer erases. */
static inline uint32_t pn_left(const pn_device *device, pn_op *op, uint32_t *left)
{
    uint32_t answer;
    if (left == NULL)
        return PN_NULL;
    answer = pn_read(device, op, PN_OP_LEFT);
    if (answer == PN_OK)
        *left = op->commits;
    return answer;
}

/* --- What changed ---
 *
 * How a host learns of a parameter record, of PrmEnd, of a reset, of another name or address, of what a pull or a plug led to, and of what is
 * asked of its application. Only frames that are not cyclic change these, pulls and plugs, and units of time that end the relation. So keep one
 * pn_watch for each device, all zeros at first, show it each frame (pn_watch_frame) before pn_frame, and call pn_news when the work of each
 * such event is done. No field of pn_tick says that it ended the relation: compare `phase` of pn_state, each ten milliseconds for instance. */
enum pn_change {
    PN_NEW_PHASE = 1,      /* the phase of the relation (`phase` of the watch) */
    PN_NEW_RELATION = 2,   /* a Connect was accepted: the records before it are no longer valid */
    PN_NEW_RECORDS = 4,    /* parameter records were accepted: those from `first_record` on, before `records` (pn_taken) */
    PN_PARAMETERS_END = 8, /* PrmEnd was accepted: the records are complete. With `ready_by_application`, call pn_ready when they are in use */
    PN_NEW_NAME = 16,      /* the running name (`settings`) */
    PN_NEW_ADDRESS = 32,   /* the running address, mask or gateway */
    PN_NEW_PASSED = 128,   /* parameter records were passed on and not kept: the last `new_passed` ones (pn_passed, the oldest of them first:
                            * from `new_passed` - 1 down to 0) */
    PN_NEW_ASKED = 512,    /* something is asked of the application that was not reported yet: pn_asked */
    PN_NEW_PLUGS = 256,    /* how far a place of the relation is (pn_expected). As a relation begins, all places are as its Connect found them */
    PN_RESET = 64          /* a reset was accepted: FactoryReset, or ResetToFactory of any kind (needs pn_watch_frame) */
};

typedef struct pn_watch {
    pn_settings settings; /* the running settings */
    uint32_t phase;
    uint32_t first_record;
    uint32_t records;  /* how many the relation has accepted and keeps; a pull or a plug takes those of its place away (PN_NEW_PLUGS) */
    uint32_t passed;   /* how many the relation has passed on, modulo 2^32 */
    uint32_t new_passed; /* how many of the last ones are new: at most 16 */
    uint32_t left;     /* commits that the flash still accepts */
    uint32_t is_begun; /* 0 before the first call */
    uint32_t is_asked; /* 1 if a frame asked for a reset since the call before */
    uint32_t asked;    /* the number of what was asked of the application last; 0 if nothing was yet */
    uint8_t progress[PN_PLACES]; /* how far each place of the relation is */
} pn_watch;

/* Whether a frame is a DCP Set with a block FactoryReset (5/5) or ResetToFactory (5/6), with a VLAN tag or without. */
static inline int pn_asks_reset(const uint8_t *octets, size_t length)
{
    static const uint8_t set[6] = {0x88, 0x92, 0xFE, 0xFD, 0x04, 0x00};
    size_t at = length >= 14 && octets[12] == 0x81 && octets[13] == 0x00 ? 16 : 12, end;
    if (length < at + 14 || memcmp(octets + at, set, sizeof set) != 0)
        return 0;
    end = at + 14 + octets[at + 12] * 256u + octets[at + 13];
    if (end > length)
        end = length;
    for (at += 14; at + 4 <= end; at += 4 + ((octets[at + 2] * 256u + octets[at + 3] + 1u) & ~(size_t)1))
        if (octets[at] == 5 && (octets[at + 1] == 5 || octets[at + 1] == 6))
            return 1;
    return 0;
}

/* Shows a frame to the watch, before pn_frame gets it. Whether the device accepts it is seen later, by what it stores. */
static inline void pn_watch_frame(pn_watch *watch, const uint8_t *octets, size_t length)
{
    if (watch != NULL && octets != NULL && pn_asks_reset(octets, length))
        watch->is_asked = 1;
}

/* Whether these are the factory settings: no name, no address, and I&M texts of blanks. */
static inline int pn_are_factory(const pn_settings *settings)
{
    static const uint8_t none[12] = {0};
    const uint8_t *const texts[4] = {settings->im1, settings->im2, settings->im3, settings->im4};
    static const size_t lengths[4] = {54, 16, 54, 54};
    size_t i, k;
    if (settings->name_length != 0 || memcmp(settings->address, none, 4) != 0 || memcmp(settings->mask, none, 4) != 0 ||
        memcmp(settings->gateway, none, 4) != 0)
        return 0;
    for (i = 0; i < 4; i++)
        for (k = 0; k < lengths[i]; k++)
            if (texts[i][k] != (i == 3 ? 0 : ' '))
                return 0;
    return 1;
}

/* How many records the relation keeps, if it kept `known` of them before. */
static inline uint32_t pn_count_taken(const pn_device *device, pn_op *op, uint32_t known)
{
    uint32_t count = known;
    while (count != 0 && pn_taken(device, op, count - 1) != PN_OK)
        count--;
    while (pn_taken(device, op, count) == PN_OK)
        count++;
    return count;
}

/* Compares how far the places are with what is in `watch`, and puts it there. Returns what changed. */
static inline uint32_t pn_place_news(const pn_device *device, pn_op *op, int is_other, pn_watch *watch)
{
    uint32_t news = 0;
    for (uint32_t number = 0; number < PN_PLACES && pn_expected(device, op, number) == PN_OK; number++) {
        if (is_other == 0 && watch->progress[number] != op->progress)
            news = PN_NEW_PLUGS;
        watch->progress[number] = (uint8_t)op->progress;
    }
    return news;
}

/* Compares the number of records that were passed on with that in `watch`, and puts it there. Returns what changed. */
static inline uint32_t pn_passed_news(const pn_device *device, pn_op *op, int is_other, pn_watch *watch)
{
    uint32_t count = 0, more;
    if (pn_passed_on(device, op, &count) != PN_OK)
        count = 0;
    more = is_other ? count : count - watch->passed;
    watch->passed = count;
    watch->new_passed = more < 16 ? more : 16;
    return more != 0 ? PN_NEW_PASSED : 0;
}

/* Compares the number of what is asked of the application with that in `watch`, and puts it there. Returns what changed. */
static inline uint32_t pn_asked_news(const pn_device *device, pn_op *op, pn_watch *watch)
{
    if (pn_asked(device, op) != PN_OK || op->number == watch->asked)
        return 0;
    watch->asked = op->number;
    return PN_NEW_ASKED;
}

/* Compares the phase and the records with those in `watch`, and puts them there. Returns what changed. */
static inline uint32_t pn_relation_news(const pn_device *device, pn_op *op, pn_watch *watch)
{
    uint32_t news = 0, phase = op->phase;
    int is_other = phase == PN_STARTED && watch->phase != PN_STARTED;
    uint32_t records = pn_count_taken(device, op, is_other ? 0 : watch->records), before = watch->records;
    /* Records of a place are forgotten only while data is exchanged; before that it is another relation. */
    if (records < before && phase <= PN_STARTED)
        is_other = 1;
    if (phase != watch->phase)
        news |= PN_NEW_PHASE;
    if (is_other && phase != PN_NONE)
        news |= PN_NEW_RELATION;
    watch->first_record = is_other ? 0 : records < before ? records : before;
    if (records > watch->first_record)
        news |= PN_NEW_RECORDS;
    if (phase >= PN_AWAITING && (watch->phase < PN_AWAITING || is_other))
        news |= PN_PARAMETERS_END;
    news |= pn_passed_news(device, op, is_other || phase == PN_NONE, watch);
    news |= pn_place_news(device, op, is_other, watch);
    watch->phase = phase;
    watch->records = records;
    return news;
}

/* Compares the settings with those in `watch`, and puts them there. Returns what changed. */
static inline uint32_t pn_settings_news(const pn_settings *now, uint32_t left, pn_watch *watch)
{
    uint32_t news = 0;
    const pn_settings *was = &watch->settings;
    if (now->name_length != was->name_length || memcmp(now->name, was->name, sizeof now->name) != 0)
        news |= PN_NEW_NAME;
    if (memcmp(now->address, was->address, 4) != 0 || memcmp(now->mask, was->mask, 4) != 0 || memcmp(now->gateway, was->gateway, 4) != 0)
        news |= PN_NEW_ADDRESS;
    if (left != watch->left && watch->is_asked != 0)
        news |= PN_RESET;
    watch->settings = *now;
    watch->left = left;
    watch->is_asked = 0;
    return news;
}

/* What changed since the call before: the sum of PN_NEW_PHASE and the numbers after it (`*news`). The first call reports nothing: make it after each
 * pn_boot, with a watch of zeros. A watch that is kept over a start can report a reset that never was. If the power fails between the answer to a
 * reset and this call, the application does not learn of the reset: if its own data must go with one, compare pn_are_factory at each start. It needs
 * a booted device without remaining work. It is inline C over calls that are proved, and is tested. May return PN_NULL, PN_NOT_MADE, PN_IN_CALL,
 * PN_NOT_BOOTED, PN_LOST; then `watch` is unchanged. */
static inline uint32_t pn_news(const pn_device *device, pn_op *op, pn_watch *watch, uint32_t *news)
{
    pn_settings now;
    uint32_t answer, left = 0;
    if (op == NULL || watch == NULL || news == NULL)
        return PN_NULL;
    answer = pn_running(device, op, &now);
    if (answer == PN_OK)
        answer = pn_left(device, op, &left);
    if (answer == PN_OK)
        answer = pn_state(device, op);
    if (answer != PN_OK)
        return answer;
    *news = pn_relation_news(device, op, watch) | pn_settings_news(&now, left, watch) | pn_asked_news(device, op, watch);
    if (watch->is_begun == 0)
        *news = 0;
    watch->is_begun = 1;
    return PN_OK;
}

#ifdef __cplusplus
}
#endif

#endif
