/* nandutable: what every function of the three libraries returns. Each number has one meaning in all of them.
 *
 * Under the MIT licence or the Apache License 2.0, as you choose. */
#ifndef NANDUTABLE_NUMBERS_H
#define NANDUTABLE_NUMBERS_H

#include <stdint.h>

#ifdef __cplusplus
extern "C" {
#endif

/* The version of the product, and that of its headers. Each of the three libraries compares PN_ABI with its own. */
#define PN_VERSION "0.1.0"
#define PN_ABI 11u
/* A number from PN_PLAN_JSON on, minus this, is the number of the fault in the documents and in messages of the programs: 1 to 11. */
#define PN_PLAN_FAULT 32u

/* What a function returns. After each number except PN_OK nothing has changed, except where a function says otherwise. */
enum {
    PN_OK = 0,

    /* Of every library. */
    PN_NULL = 1,       /* a pointer is null, or a function of pn_host */
    PN_BAD_ABI = 2,    /* the version of the header, or one of its sizes, is not the library's */
    PN_SMALL_ROOM = 3, /* the room is too small, or its address is not a multiple of 16 */
    PN_HAS_WORK = 7,   /* work of the previous step was not fetched yet: fetch it first */
    PN_BAD_LENGTH = 8, /* a sector, a value or settings have another number of octets */
    PN_NO_SLOT = 9,    /* no such input or output is plugged in this slot and subslot, or no alarm was accepted yet */
    PN_UNKNOWN = 10,   /* no such operation */
    PN_NOT_SENT = 13,  /* a frame could not be sent; the other frames of the step were tried */
    PN_NO_FRAME = 24,  /* no cyclic frame with data of this submodule was accepted */
    PN_NOT_MADE = 17,  /* pn_make or pn_controller_start has not returned PN_OK for this memory */
    PN_IN_CALL = 48,   /* another call with this device or this controller has not returned yet: of another thread, or of what was interrupted */

    /* Of a device. */
    PN_BAD_STATION = 4,    /* a count of the station is more than its list holds */
    PN_NOT_BOOTED = 5,     /* pn_boot has not returned PN_OK since pn_make */
    PN_IS_BOOTED = 6,      /* pn_boot has already returned PN_OK */
    PN_FOREIGN = 11,       /* pn_boot: no device of this layout wrote the contents of the flash */
    PN_FLASH_FAULT = 12,   /* pn_carry_out: a flash call failed; call pn_make and pn_boot next */
    PN_LOST = 14,          /* a flash call failed since pn_boot; call pn_make and pn_boot next */
    PN_NO_RECORD = 15,     /* no accepted parameter record has this number */
    PN_BAD_MAC = 18,       /* the station's MAC address is that of a group: its first octet is odd */
    PN_BAD_SLOT = 19,      /* a module of the station is in a slot after 15, or two are in one slot */
    PN_BAD_SUBSLOT = 20,   /* a submodule is in a subslot outside 1 to 36,863, or two of a module are in one subslot */
    PN_BAD_DATA = 21,      /* a submodule has more than 1,439 octets of input or output, which no cyclic frame carries */
    PN_BAD_PARAMETER = 22, /* a parameter record has an index after 32,767, a length outside 1 to 64, or the index of another */
    PN_BAD_OPTION = 23,    /* the smallest interval of the station is more than 65,536 units */
    PN_REFUSED = 44,       /* the device refused what its application said: `reason` of the operation says why (enum pn_reason) */
    PN_NO_PLACE = 45,      /* no place of the relation has this number, or there is no relation */
    PN_BAD_RECORD = 46,    /* a record that the application answers has an index after 32,767 or a length outside 1 to 1,308, can be neither read
                            * nor written, or is there twice */
    PN_NOT_ASKED = 47,     /* nothing is asked of the application */

    /* Of a controller. */
    PN_BAD_PLAN = 16,   /* the plan is not valid (pn_plan_fault returns why), or the ARUUID is zero */
    PN_NO_REFUSAL = 25, /* the device refused no call, or no record of the plan, yet */
    PN_BUSY = 26,       /* no data is exchanged, or a request of the application waits for its answer */
    PN_NO_ANSWER = 27,  /* no request of the application was answered: none was made, it waits, or the relation ended first. Of a tool: the
                         * frame is no answer to its request */

    /* Of a tool that works before a controller starts: why no station gets a name. */
    PN_NOBODY = 28,       /* no station answered */
    PN_SEVERAL = 29,      /* more than one station answered */
    PN_HAS_NAME = 30,     /* the station has a name */
    PN_NAME_UNTOLD = 31,  /* the station does not tell whether it has a name */

    /* Of a catalogue that gives no plan (pn_plan_read), or of a plan that a host wrote and that is not valid (pn_plan_fault): its first
     * fault. Only a catalogue has the first three and the last. */
    PN_PLAN_JSON = 33,         /* the text is not JSON */
    PN_PLAN_MISSING_KEY = 34,  /* a key is missing */
    PN_PLAN_WRONG_KIND = 35,   /* a value is of another kind than its key requires */
    PN_PLAN_NUMBER = 36,       /* a number is out of its range, or what it names does not exist or exists twice */
    PN_PLAN_NOT_ALLOWED = 37,  /* a module is not allowed in its slot */
    PN_PLAN_TOO_MANY = 38,     /* too many slots, submodules or records */
    PN_PLAN_FRAME_LONG = 39,   /* a cyclic frame would hold more than 1,440 octets */
    PN_PLAN_CONNECT_LONG = 40, /* the Connect would not fit a frame */
    PN_PLAN_NAME = 41,         /* a station name is not valid */
    PN_PLAN_ADDRESS = 42,      /* an address is not valid */
    PN_PLAN_MEMORY = 43        /* out of memory */
};

/* The text of a number, for a message. It is never null, and lasts as long as the program. */
static inline const char *pn_strerror(uint32_t number)
{
    switch (number) {
    case PN_OK: return "done";
    case PN_NULL: return "a pointer is null";
    case PN_BAD_ABI: return "the header is not that of the library";
    case PN_SMALL_ROOM: return "the memory is too small, or its address is not a multiple of 16";
    case PN_BAD_STATION: return "a count of the station is more than its list holds";
    case PN_NOT_BOOTED: return "the device has not started: pn_boot comes first";
    case PN_IS_BOOTED: return "the device has already started";
    case PN_HAS_WORK: return "work of the previous step was not fetched yet";
    case PN_BAD_LENGTH: return "another number of octets is expected";
    case PN_NO_SLOT: return "no such input or output is plugged there, or no alarm was accepted yet";
    case PN_UNKNOWN: return "no such operation";
    case PN_FOREIGN: return "no device of this layout wrote the contents of the flash";
    case PN_FLASH_FAULT: return "a flash call failed: the device must be made and started again";
    case PN_NOT_SENT: return "a frame could not be sent";
    case PN_LOST: return "a flash call has failed before: the device must be made and started again";
    case PN_NO_RECORD: return "no accepted parameter record has this number";
    case PN_BAD_PLAN: return "the plan is not valid, or the ARUUID is zero";
    case PN_NOT_MADE: return "no device or controller was made in this memory";
    case PN_IN_CALL: return "another call with this device or controller has not returned yet";
    case PN_BAD_MAC: return "the MAC address of the station is that of a group";
    case PN_BAD_SLOT: return "a module is in a slot after 15, or two are in one slot";
    case PN_BAD_SUBSLOT: return "a submodule is in a subslot outside 1 to 36,863, or two are in one subslot";
    case PN_BAD_DATA: return "a submodule has more than 1,439 octets of input or output";
    case PN_BAD_PARAMETER: return "a parameter record has a wrong index or length, or two have one index";
    case PN_BAD_OPTION: return "the smallest interval of the station is more than 65,536 units";
    case PN_REFUSED: return "the device refused what its application said";
    case PN_NO_PLACE: return "no place of the relation has this number";
    case PN_BAD_RECORD: return "a record that the application answers has a wrong index or length, no access, or is there twice";
    case PN_NOT_ASKED: return "nothing is asked of the application";
    case PN_NO_FRAME: return "no cyclic frame with data of this submodule was accepted";
    case PN_NO_REFUSAL: return "the device refused no call, or no record of the plan, yet";
    case PN_BUSY: return "no data is exchanged, or another request waits for its answer";
    case PN_NO_ANSWER: return "no request was answered";
    case PN_NOBODY: return "no station answered";
    case PN_SEVERAL: return "more than one station answered";
    case PN_HAS_NAME: return "the station has a name";
    case PN_NAME_UNTOLD: return "the station does not tell whether it has a name";
    case PN_PLAN_JSON: return "the text is not JSON";
    case PN_PLAN_MISSING_KEY: return "a key is missing";
    case PN_PLAN_WRONG_KIND: return "a value is of another kind than its key requires";
    case PN_PLAN_NUMBER: return "a number is out of its range, or what it names does not exist or exists twice";
    case PN_PLAN_NOT_ALLOWED: return "a module is not allowed in its slot";
    case PN_PLAN_TOO_MANY: return "there are too many slots, submodules or records";
    case PN_PLAN_FRAME_LONG: return "a cyclic frame would hold more than 1,440 octets";
    case PN_PLAN_CONNECT_LONG: return "the Connect would not fit a frame";
    case PN_PLAN_NAME: return "a station name is not valid";
    case PN_PLAN_ADDRESS: return "an address is not valid";
    case PN_PLAN_MEMORY: return "out of memory";
    default: return "no number of this library";
    }
}

#ifdef __cplusplus
}
#endif

#endif
