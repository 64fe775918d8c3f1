/* What is at the other side of the terminals: a valve with a drive, a pressure sensor, a purge valve and a button. A test board has
 * nothing of this, so plant.c plays it, by keys of the console. A product has its drivers here. */
#ifndef PLANT_H
#define PLANT_H

#include <stdint.h>

/* Positions are tenths of a percent, 0 (closed) to 1000 (open), pressures millibar. */
#define PLANT_OPEN 1000u

/* The position of the valve. */
uint16_t plant_position(void);

/* The pressure. Returns 0, or 1 if the wire of the sensor is broken; then `*pressure` is unchanged. */
int plant_pressure(uint16_t *pressure);

/* Moves the valve towards `position` by at most `most`. */
void plant_drive(uint16_t position, uint16_t most);

/* Opens or closes the purge valve. */
void plant_purge(int is_open);

/* Whether the button was pressed since the last call. */
int plant_button(void);

/* Takes the keys of the console. */
void plant_step(void);

#endif
