/* Alarms as text: their types, and the channels of a diagnosis. Only used for messages. */
#ifndef HOST_ALARMS_H
#define HOST_ALARMS_H

#include "texts.h"
#include <stddef.h>
#include <stdint.h>

/* The name of an AlarmType (IEC 61158-6-10, 5.2.5), or an empty text. */
const char *alarms_type(unsigned type);

/* The name of a UserStructureIdentifier, or an empty text. */
const char *alarms_structure(unsigned identifier);

/* The name of a ChannelErrorType: that of the standard, or its maker's, or an empty text. */
const char *alarms_error(const struct texts *texts, unsigned error);

/* An alarm that a device raised. */
struct alarm {
    int is_low; /* its priority */
    unsigned type;
    unsigned slot;
    unsigned subslot;
    unsigned specifier;
    long structure;        /* UserStructureIdentifier; -1: none */
    const uint8_t *octets; /* after that */
    size_t length;
};

/* Whether an alarm of this type reports that a submodule was plugged. */
int alarms_is_plug(unsigned type);

/* Whether a device expects the submodule to be parametrized again after an alarm of this type. The controller does that after a plug, if its plan
 * says so (parameters_after_plug). */
int alarms_wants_parameters(unsigned type);

/* Writes its line: `alarm TYPE SLOT SUBSLOT SPECIFIER HEX (TEXT)`, with `-` for no octets. */
#define ALARMS_LONGEST 3800
void alarms_line(const struct alarm *alarm, const struct texts *texts, char *text, size_t size);

#endif
