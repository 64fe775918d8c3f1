/* Prints the names of statuses, alarms, structures and errors of a channel, for a comparison with the names that another program has. */
#include "../src/alarms.c"
#include "../src/statuses.c"

/* The names that a maker gives in a catalogue are left out. */
const char *texts_error(const struct texts *texts, unsigned error, long extended)
{
    (void)texts;
    (void)error;
    (void)extended;
    return "";
}

static void print(const char *kind, const struct meaning *list, size_t count)
{
    for (size_t i = 0; i < count; i++)
        printf("%s %u %s\n", kind, (unsigned)list[i].code, list[i].name);
}

#define PRINT(kind, list) print(kind, list, sizeof list / sizeof list[0])

int main(void)
{
    PRINT("access", accesses);
    PRINT("part", parts);
    PRINT("connection", connections);
    PRINT("abort", aborts);
    PRINT("call", calls);
    for (unsigned type = 0; type < 256; type++)
        if (*alarms_type(type) != '\0')
            printf("alarm %u %s\n", type, alarms_type(type));
    for (unsigned identifier = 0; identifier < 65536; identifier++)
        if (*alarms_structure(identifier) != '\0')
            printf("structure %u %s\n", identifier, alarms_structure(identifier));
    for (unsigned error = 0; error < 65536; error++)
        if (*alarms_error(NULL, error) != '\0')
            printf("error %u %s\n", error, alarms_error(NULL, error));
    return 0;
}
