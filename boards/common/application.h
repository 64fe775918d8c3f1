/* What the host asks of an application. */
#ifndef APPLICATION_H
#define APPLICATION_H

#include "nandutable.h"

/* What the device is, and what is plugged in it. */
extern const pn_station application_station;

/* The device was started: at first, and after a flash call that failed. Each status is good again, and no diagnosis exists. */
void application_starts(void);

/* A parameter record of the relation. */
void application_record(uint32_t slot, uint32_t subslot, uint32_t index, const uint8_t *octets, uint32_t length);

/* The parameters of the relation have ended: the application calls host_ready when they are in use. */
void application_parameters_end(void);

/* There is no relation any more: parameters that are not in use yet are forgotten, and outputs go to their safe values. */
void application_relation_ends(void);

/* What became of the alarm that host_alarm raised last: the controller acknowledged it, with this PNIOStatus (0: it handled the alarm), or the
 * relation ended first. */
void application_alarm_is_acknowledged(uint32_t status);
void application_alarm_is_given_up(void);

/* The settings were set to those of the factory. */
void application_was_reset(void);

/* `units` of time have passed, less than 64. Called each millisecond. */
void application_step(uint32_t units);

#endif
