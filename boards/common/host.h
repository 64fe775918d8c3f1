/* The host of the device: it starts it from the chip, hands in frames and time, carries out its work, and calls the application. */
#ifndef HOST_H
#define HOST_H

#include "nandutable.h"

/* Starts the device from the chip and runs it. It does not return. */
_Noreturn void host_run(void);

/* --- For the application, between two events. Each returns 1 if the device accepted it, and else 0. --- */

/* A new value of an input. */
int host_input(uint16_t slot, uint16_t subslot, const uint8_t *octets, uint32_t length);

/* An output of this length, if data is exchanged, the controller runs and the output is good. Otherwise NULL: the output has to be safe. The octets
 * are valid until the next call of the host. */
const uint8_t *host_output(uint16_t slot, uint16_t subslot, uint32_t length);

/* Whether the inputs of a submodule are good; a diagnosis that appears or disappears; a process alarm. */
int host_status(uint16_t slot, uint16_t subslot, int is_good);
int host_diagnosis(uint16_t slot, uint16_t subslot, uint16_t channel, uint16_t error, int appears);
int host_alarm(uint16_t slot, uint16_t subslot, const uint8_t *octets, uint32_t length);

/* All parameters of the relation are in use. */
int host_ready(void);

/* Sets the device to its factory settings, as a FactoryReset by DCP does. */
int host_reset(void);

/* What happened since the processor started. */
struct host_counts {
    uint32_t programs; /* calls of the flash */
    uint32_t erases;
    uint32_t losses;    /* calls of the flash that failed: the device was started again */
    uint32_t forgotten; /* units of time that were dropped after a stall */
    uint32_t turns;     /* of the loop */
};

struct host_counts host_counts(void);

#endif
