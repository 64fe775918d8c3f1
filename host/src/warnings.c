#include "warnings.h"
#include "arp.h"
#include <string.h>

/* A data hold time that is shorter than this is warned of: 10 ms, in units of 31.25 microseconds. */
#define LEAST_HOLD 320u

static void warn_of_names(const pn_plan *plan, struct lines *lines)
{
    if (plan->name_length == plan->controller_name_length && memcmp(plan->name, plan->controller_name, plan->name_length) == 0)
        lines_tell(lines, "warning: the plan gives both ends the name '%.*s' (Project.NameOfStation, Project.Controller.NameOfStation)",
                   (int)plan->name_length, (const char *)plan->name);
}

static void warn_of_addresses(const pn_plan *plan, struct lines *lines)
{
    const uint8_t *address = plan->address;
    if (memcmp(address, plan->controller_address, 4) == 0)
        lines_tell(lines, "warning: the plan gives both ends the address %u.%u.%u.%u (Project.IPAddress, Project.Controller.IPAddress)", address[0],
                   address[1], address[2], address[3]);
}

static void warn_of_gateway(const pn_plan *plan, struct lines *lines)
{
    const uint8_t *address = plan->address, *mask = plan->mask, *gateway = plan->gateway;
    int is_outside = 0;
    for (int i = 0; i < 4; i++)
        is_outside |= (address[i] ^ gateway[i]) & mask[i];
    if (is_outside && !arp_is_zero(gateway) && !arp_is_zero(address))
        lines_tell(lines,
                   "warning: the gateway %u.%u.%u.%u is not in the subnet of the station, %u.%u.%u.%u with the mask %u.%u.%u.%u (Project.Gateway, "
                   "Project.SubnetMask)",
                   gateway[0], gateway[1], gateway[2], gateway[3], address[0], address[1], address[2], address[3], mask[0], mask[1], mask[2], mask[3]);
}

/* A machine that is late for the data hold time ends the relation: on Linux some milliseconds are usual, and more under load. */
static void warn_of_data_hold(const pn_plan *plan, struct lines *lines)
{
    unsigned units = (unsigned)plan->send_clock_factor * plan->reduction_ratio * plan->data_hold_factor;
    if (units < LEAST_HOLD)
        lines_tell(lines,
                   "warning: the data hold time is %u.%03u ms (SendClockFactor, ReductionRatio and DataHoldFactor of Project): the relation ends whenever one of "
                   "both ends is late for that long; on a machine that does other work 100 ms are usual",
                   units / 32, units % 32 * 1000 / 32);
}

void warnings_of_plan(const pn_plan *plan, struct lines *lines)
{
    warn_of_data_hold(plan, lines);
    warn_of_names(plan, lines);
    warn_of_addresses(plan, lines);
    warn_of_gateway(plan, lines);
}
