#include "alarms.h"
#include "words.h"
#include <stdio.h>

/* AlarmTypes. */
enum { PLUG = 4, RELEASED = 9 };

/* UserStructureIdentifiers. */
#define CHANNEL_DIAGNOSIS 0x8000
#define EXTENDED_DIAGNOSIS 0x8002
#define QUALIFIED_DIAGNOSIS 0x8003

/* The Specifier of ChannelProperties, bits 11 and 12. */
enum { ALL_DISAPPEAR = 0, APPEARS = 1, DISAPPEARS = 2, DISAPPEARS_OTHERS_REMAIN = 3 };

#define WHOLE_SUBMODULE 0x8000u /* a ChannelNumber */
#define CHANNELS_MOST 4u        /* how many channels of an alarm are described */
#define DATA_MOST 1440u         /* octets of an alarm */
#define CHANNEL_LONGEST (128u + 2u * TEXTS_LONGEST)

const char *alarms_type(unsigned type)
{
    static const char *const names[] = {
        "", "diagnosis", "process", "pull", "plug", "status", "update", "redundancy", "controlled by supervisor", "released", "plug wrong submodule",
        "return of submodule", "diagnosis disappears", "multicast communication mismatch", "port data change", "sync data changed",
        "isochronous mode problem", "network component problem", "time data changed", "dynamic frame packing problem"};
    if (type < sizeof names / sizeof names[0])
        return names[type];
    switch (type) {
    case 0x1E: return "upload and retrieval";
    case 0x1F: return "pull module";
    default: return "";
    }
}

int alarms_is_plug(unsigned type)
{
    return type == PLUG;
}

int alarms_wants_parameters(unsigned type)
{
    return type == PLUG || type == RELEASED;
}

const char *alarms_structure(unsigned identifier)
{
    switch (identifier) {
    case CHANNEL_DIAGNOSIS: return "channel diagnosis";
    case 0x8001: return "multiple";
    case EXTENDED_DIAGNOSIS: return "extended channel diagnosis";
    case QUALIFIED_DIAGNOSIS: return "qualified channel diagnosis";
    case 0x8100: return "maintenance";
    case 0x8200: return "upload and retrieval";
    case 0x8201: return "iParameter";
    default: return "";
    }
}

static const char *error_of_standard(unsigned error)
{
    static const char *const low[] = {
        "", "short circuit", "undervoltage", "overvoltage", "overload", "overtemperature", "wire break", "upper limit value exceeded",
        "lower limit value exceeded", "error", "simulation active", "", "", "", "", "parameter missing", "parameterization fault",
        "power supply fault", "fuse blown / open", "manufacturer specific", "ground fault", "reference point lost",
        "process event lost / sampling error", "threshold warning", "output disabled", "functional safety event", "external fault"};
    static const char *const high[] = {
        "data transmission impossible", "remote mismatch", "media redundancy mismatch", "sync mismatch", "isochronous mode mismatch",
        "multicast CR mismatch", "", "fiber optic mismatch", "network component function mismatch", "time mismatch"};
    if (error < sizeof low / sizeof low[0])
        return low[error];
    if (error == 0x1F)
        return "temporary fault";
    return error >= 0x8000 && error - 0x8000 < sizeof high / sizeof high[0] ? high[error - 0x8000] : "";
}

const char *alarms_error(const struct texts *texts, unsigned error)
{
    const char *name = error_of_standard(error);
    return *name != '\0' ? name : texts_error(texts, error, -1);
}

static unsigned two(const uint8_t *octets)
{
    return (unsigned)octets[0] << 8 | octets[1];
}

static const char *change_of(unsigned properties)
{
    switch (properties >> 11 & 3) {
    case APPEARS: return "appears";
    case DISAPPEARS: return "disappears";
    case DISAPPEARS_OTHERS_REMAIN: return "disappears, others remain";
    default: return "all of this channel disappear";
    }
}

/* The octets of a channel of such a structure: number, properties and error, then the extended error and its value, then the qualifier; 0 if
 * the structure has no channels. */
static size_t channel_length(long structure)
{
    switch (structure) {
    case CHANNEL_DIAGNOSIS: return 6;
    case EXTENDED_DIAGNOSIS: return 12;
    case QUALIFIED_DIAGNOSIS: return 16;
    default: return 0;
    }
}

static void channel_words(const uint8_t *octets, size_t length, const struct texts *texts, char *text, size_t size)
{
    unsigned channel = two(octets), properties = two(octets + 2), error = two(octets + 4);
    const char *name = alarms_error(texts, error), *its;
    char number[24] = "", extended[32 + TEXTS_LONGEST] = "";
    if (channel != WHOLE_SUBMODULE)
        snprintf(number, sizeof number, "channel %u ", channel);
    if (length > 6) {
        its = texts_error(texts, error, (long)two(octets + 6));
        snprintf(extended, sizeof extended, " extended error %u%s%s%s", two(octets + 6), *its == '\0' ? "" : " (", its, *its == '\0' ? "" : ")");
    }
    snprintf(text, size, "%serror %u%s%s%s%s %s", number, error, *name == '\0' ? "" : " (", name, *name == '\0' ? "" : ")", extended,
             change_of(properties));
}

/* The channels of a diagnosis. An empty text if the structure has none. */
static void channels_words(const struct alarm *alarm, const struct texts *texts, char *text, size_t size)
{
    size_t each = channel_length(alarm->structure), used = 0;
    text[0] = '\0';
    if (each == 0)
        return;
    for (unsigned i = 0; i < CHANNELS_MOST && (i + 1) * each <= alarm->length && used < size; i++) {
        char channel[CHANNEL_LONGEST];
        channel_words(alarm->octets + i * each, each, texts, channel, sizeof channel);
        used += (size_t)snprintf(text + used, size - used, "%s%s", i == 0 ? ": " : ", ", channel);
    }
}

/* The UserStructureIdentifier with its name, and the channels of a diagnosis. */
static void structure_words(const struct alarm *alarm, const struct texts *texts, char *text, size_t size)
{
    const char *name = alarms_structure((unsigned)alarm->structure);
    char channels[CHANNELS_MOST * (CHANNEL_LONGEST + 2)];
    channels_words(alarm, texts, channels, sizeof channels);
    if (alarm->structure < 0)
        snprintf(text, size, "no USI");
    else
        snprintf(text, size, "USI %04lX%s%s%s", (unsigned long)alarm->structure, *name == '\0' ? "" : " ", name, channels);
}

void alarms_line(const struct alarm *alarm, const struct texts *texts, char *text, size_t size)
{
    const char *type = alarms_type(alarm->type);
    char octets[2 * DATA_MOST + 1] = "-", structure[800];
    if (alarm->length != 0 && alarm->length <= DATA_MOST)
        words_hex(octets, alarm->octets, alarm->length);
    structure_words(alarm, texts, structure, sizeof structure);
    snprintf(text, size, "alarm %u %u %u %u %s (%s priority, %s, %s)", alarm->type, alarm->slot, alarm->subslot, alarm->specifier, octets,
             alarm->is_low ? "low" : "high", *type == '\0' ? "a type of its maker" : type, structure);
}
