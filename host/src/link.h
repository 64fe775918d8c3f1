/* What the kernel knows of the link of an interface. */
#ifndef HOST_LINK_H
#define HOST_LINK_H

#include "nandutable.h"
#include "wire.h"

/* Asks the kernel for the speed of the link, its MAU and its autonegotiation (ETHTOOL_GLINKSETTINGS). Returns whether they are known. */
int link_ask(const struct wire *wire, pn_link *link);

/* The type of the MAU (dot3MauType of IANA) of a link with this speed in Mbit/s, duplex and port, as the kernel numbers them; 0 if it is
 * not known. */
uint16_t link_mau(uint32_t speed, unsigned duplex, unsigned port);

/* What is advertised (ifAutoNegCapAdvertised of IANA), from the first 64 link modes of the kernel. */
uint16_t link_capability(uint64_t modes);

#endif
