#define _GNU_SOURCE
#include "link.h"
#include <linux/ethtool.h>
#include <linux/sockios.h>
#include <string.h>
#include <sys/ioctl.h>

/* The most words of a mask of link modes: the kernel says in 8 bits, with a sign, how many it has. */
#define MOST_WORDS 127

/* The settings of a link, with room for the masks of the modes after them: supported, advertised, and advertised by the other end. */
union settings {
    struct ethtool_link_settings head;
    uint8_t room[sizeof(struct ethtool_link_settings) + 3 * MOST_WORDS * sizeof(uint32_t)];
};

static int ask(const struct wire *wire, union settings *settings)
{
    struct ifreq request;
    memset(&request, 0, sizeof request);
    memcpy(request.ifr_name, wire->name, sizeof request.ifr_name);
    settings->head.cmd = ETHTOOL_GLINKSETTINGS;
    request.ifr_data = (char *)settings;
    return ioctl(wire->fd, SIOCETHTOOL, &request);
}

/* The kernel says first how many words a mask has, as a negative number, and then gives the settings to whom asks with this number. */
static int read_settings(const struct wire *wire, union settings *settings)
{
    int words;
    memset(settings, 0, sizeof *settings);
    if (ask(wire, settings) != 0 || settings->head.link_mode_masks_nwords >= 0)
        return 0;
    words = -settings->head.link_mode_masks_nwords;
    if (words > MOST_WORDS)
        return 0;
    memset(settings, 0, sizeof *settings);
    settings->head.link_mode_masks_nwords = (int8_t)words;
    return ask(wire, settings) == 0 && settings->head.link_mode_masks_nwords == words;
}

/* The first 64 modes of a mask, by its number. */
static uint64_t modes_in(const union settings *settings, unsigned mask)
{
    unsigned words = (unsigned)settings->head.link_mode_masks_nwords;
    const uint32_t *first = settings->head.link_mode_masks + mask * words;
    return (words > 0 ? first[0] : 0) | (words > 1 ? (uint64_t)first[1] << 32 : 0);
}

uint16_t link_mau(uint32_t speed, unsigned duplex, unsigned port)
{
    static const struct {
        uint32_t speed;
        unsigned port;
        uint16_t half;
        uint16_t full;
    } known[] = {{10, PORT_TP, 10, 11},    {100, PORT_TP, 15, 16},     {1000, PORT_TP, 29, 30},  {10000, PORT_TP, 0, 54},
                 {100, PORT_FIBRE, 17, 18}, {1000, PORT_FIBRE, 21, 22}, {10000, PORT_FIBRE, 0, 31}};
    for (unsigned i = 0; i < sizeof known / sizeof known[0]; i++)
        if (known[i].speed == speed && known[i].port == port)
            return duplex == DUPLEX_FULL ? known[i].full : duplex == DUPLEX_HALF ? known[i].half : 0;
    return 0;
}

static int has(uint64_t modes, unsigned mode)
{
    return (modes >> mode & 1) != 0;
}

/* The pause that is advertised: symmetric, asymmetric, or both. */
static unsigned pauses(uint64_t modes)
{
    if (!has(modes, ETHTOOL_LINK_MODE_Pause_BIT))
        return has(modes, ETHTOOL_LINK_MODE_Asym_Pause_BIT) ? 0x0040 : 0;
    return has(modes, ETHTOOL_LINK_MODE_Asym_Pause_BIT) ? 0x0010 : 0x0020;
}

uint16_t link_capability(uint64_t modes)
{
    static const struct {
        unsigned mode;
        unsigned bit;
    } bits[] = {{ETHTOOL_LINK_MODE_10baseT_Half_BIT, 0x4000},   {ETHTOOL_LINK_MODE_10baseT_Full_BIT, 0x2000},
                {ETHTOOL_LINK_MODE_100baseT_Half_BIT, 0x0800},  {ETHTOOL_LINK_MODE_100baseT_Full_BIT, 0x0400},
                {ETHTOOL_LINK_MODE_1000baseX_Full_BIT, 0x0004}, {ETHTOOL_LINK_MODE_1000baseT_Half_BIT, 0x0002},
                {ETHTOOL_LINK_MODE_1000baseT_Full_BIT, 0x0001}};
    unsigned all = pauses(modes);
    for (unsigned i = 0; i < sizeof bits / sizeof bits[0]; i++)
        if (has(modes, bits[i].mode))
            all |= bits[i].bit;
    return (uint16_t)all;
}

int link_ask(const struct wire *wire, pn_link *link)
{
    static union settings settings;
    if (!read_settings(wire, &settings))
        return 0;
    link->mau_type = link_mau(settings.head.speed, settings.head.duplex, settings.head.port);
    link->support = (uint8_t)((has(modes_in(&settings, 0), ETHTOOL_LINK_MODE_Autoneg_BIT) ? PN_AUTONEG_SUPPORTED : 0u)
                              | (settings.head.autoneg == AUTONEG_ENABLE ? PN_AUTONEG_ENABLED : 0u));
    link->capability = link_capability(modes_in(&settings, 1));
    return link->mau_type != 0;
}
