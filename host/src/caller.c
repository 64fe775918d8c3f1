#define _GNU_SOURCE
#include "caller.h"
#include "loop.h"
#include "say.h"
#include <errno.h>
#include <net/if.h>
#include <netinet/in.h>
#include <string.h>
#include <sys/ioctl.h>
#include <sys/random.h>
#include <sys/socket.h>
#include <unistd.h>

/* The port of calls. */
#define PORT_CALLS 34964u

static pn_op op;

void caller_take_address(struct caller *caller, const struct wire *wire)
{
    struct sockaddr_in address;
    struct ifreq request;
    int fd;
    memcpy(caller->tool.mac, wire->hardware, sizeof caller->tool.mac);
    memset(&request, 0, sizeof request);
    memcpy(request.ifr_name, wire->name, sizeof request.ifr_name);
    fd = socket(AF_INET, SOCK_DGRAM | SOCK_CLOEXEC, 0);
    if (fd < 0 || ioctl(fd, SIOCGIFADDR, &request) != 0) {
        if (fd >= 0)
            close(fd);
        return;
    }
    memcpy(&address, &request.ifr_addr, sizeof address);
    memcpy(caller->tool.address, &address.sin_addr, sizeof caller->tool.address);
    caller->has_address = 1;
    /* The socket stays open while the program runs: the kernel must not answer that nobody receives at the port. Nothing is read from it. */
    address.sin_port = htons(PORT_CALLS);
    if (bind(fd, (struct sockaddr *)&address, sizeof address) != 0)
        close(fd); /* another program has the port: then the kernel does not answer either */
}

void caller_make_activity(uint8_t activity[16])
{
    if (getrandom(activity, 16, 0) != 16)
        fail(STATUS_SYSTEM, "the system gives no random numbers: %s", strerror(errno));
}

void caller_ask(const struct caller *caller, struct wire *wire, const pn_target *target, const uint8_t activity[16], const struct access *access)
{
    loop_must(pn_tool_ask_record(&caller->tool, target, activity, &op, access->slot, access->subslot, access->index), "pn_tool_ask_record");
    wire_send(wire, op.octets, op.length);
}

int caller_hear(const struct caller *caller, const uint8_t activity[16], const uint8_t *octets, size_t size, struct access_answer *answer)
{
    if (pn_tool_record_in(&caller->tool, activity, &op, octets, size) != PN_OK)
        return 0;
    *answer = (struct access_answer){.is_refused = op.status != 0, .octets = op.octets, .length = op.length};
    access_spell(answer->status, op.status);
    return 1;
}

void caller_serve(const struct caller *caller, struct wire *wire, const uint8_t *octets, size_t size)
{
    if (caller->services == NULL || !wire_is_service(octets, size))
        return;
    loop_must(pn_controller_frame(caller->services, &op, octets, size), "pn_controller_frame");
    for (;;) {
        loop_must(pn_controller_next(caller->services, &op), "pn_controller_next");
        if (op.work != PN_SEND)
            return;
        if (wire_is_service(op.octets, op.length))
            wire_send(wire, op.octets, op.length);
    }
}
