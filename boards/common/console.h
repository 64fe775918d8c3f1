/* The console: text out, and keys in, over a serial line. Text waits in a buffer and is sent each millisecond by the loop, so that no line delays
 * the exchange of data. What finds no room in the buffer is lost. */
#ifndef CONSOLE_H
#define CONSOLE_H

#include <stddef.h>
#include <stdint.h>

/* --- Of each board --- */

/* Prepares the serial line. */
void serial_start(void);

/* Sends one character. Returns 1, or 0 if the line is not free yet. */
int serial_send(char character);

/* The next character that was received, or 0 if no character waits. */
char serial_receive(void);

/* --- Of console.c --- */

/* Writes a character, a text, a number in decimal, octets in hex, or a text with a number and a line end. */
void console_put(char character);
void console_say(const char *text);
void console_number(uint32_t number);
void console_octets(const uint8_t *octets, size_t length);
void console_line(const char *text, uint32_t number);

/* Sends what the line takes now. The loop calls it each millisecond. */
void console_step(void);

/* Sends all of it, and waits for that. Only before a reset. */
void console_finish(void);

#endif
