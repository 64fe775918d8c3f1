#include "console.h"

#define SIZE 512u

static char buffer[SIZE];
static uint32_t written, sent; /* how many characters, modulo 2^32 */

void console_put(char character)
{
    if (written - sent < SIZE)
        buffer[written++ % SIZE] = character;
}

void console_say(const char *text)
{
    while (*text != '\0')
        console_put(*text++);
}

void console_number(uint32_t number)
{
    char text[11], *at = text + 10;
    *at = '\0';
    do
        *--at = (char)('0' + number % 10);
    while ((number /= 10) != 0);
    console_say(at);
}

void console_octets(const uint8_t *octets, size_t length)
{
    static const char digits[] = "0123456789abcdef";
    for (size_t i = 0; i < length; i++) {
        console_put(digits[octets[i] >> 4]);
        console_put(digits[octets[i] & 15]);
    }
}

void console_line(const char *text, uint32_t number)
{
    console_say(text);
    console_number(number);
    console_put('\n');
}

void console_step(void)
{
    if (sent == written)
        return;
    while (sent != written && serial_send(buffer[sent % SIZE]))
        sent++;
}

void console_finish(void)
{
    while (sent != written)
        console_step();
}
