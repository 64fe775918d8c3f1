#include "words.h"
#include <ctype.h>
#include <stdio.h>
#include <string.h>

int words_number(const char *word, unsigned long most, unsigned long *value)
{
    unsigned long sum = 0;
    if (*word == '\0')
        return 0;
    for (; *word != '\0'; word++) {
        if (!isdigit((unsigned char)*word))
            return 0;
        sum = sum * 10 + (unsigned long)(*word - '0');
        if (sum > most)
            return 0;
    }
    *value = sum;
    return 1;
}

static int digit(char letter)
{
    if (letter >= '0' && letter <= '9')
        return letter - '0';
    letter = (char)tolower((unsigned char)letter);
    return letter >= 'a' && letter <= 'f' ? letter - 'a' + 10 : -1;
}

int words_index(const char *word, unsigned long *value)
{
    unsigned long sum = 0;
    if (word[0] != '0' || word[1] != 'x' || word[2] == '\0')
        return words_number(word, 65535, value);
    for (word += 2; *word != '\0'; word++) {
        if (digit(*word) < 0)
            return 0;
        sum = sum * 16 + (unsigned long)digit(*word);
        if (sum > 65535)
            return 0;
    }
    *value = sum;
    return 1;
}

long words_octets(const char *word, uint8_t *octets, size_t most)
{
    size_t length = strlen(word);
    if (length % 2 != 0 || length / 2 > most)
        return -1;
    for (size_t i = 0; i < length / 2; i++) {
        int high = digit(word[2 * i]), low = digit(word[2 * i + 1]);
        if (high < 0 || low < 0)
            return -1;
        octets[i] = (uint8_t)(high << 4 | low);
    }
    return (long)(length / 2);
}

int words_mac(const char *word, uint8_t mac[6])
{
    if (strlen(word) != 17)
        return 0;
    for (int i = 0; i < 6; i++) {
        int high = digit(word[3 * i]), low = digit(word[3 * i + 1]);
        char next = word[3 * i + 2];
        if (high < 0 || low < 0 || (i < 5 && next != ':' && next != '-'))
            return 0;
        mac[i] = (uint8_t)(high << 4 | low);
    }
    return 1;
}

const char *words_show_mac(char text[WORDS_MAC], const uint8_t mac[6])
{
    snprintf(text, WORDS_MAC, "%02x:%02x:%02x:%02x:%02x:%02x", mac[0], mac[1], mac[2], mac[3], mac[4], mac[5]);
    return text;
}

const char *words_show_text(char *shown, size_t room, const uint8_t *octets, size_t size)
{
    size_t count = size < room - 1 ? size : room - 1;
    for (size_t i = 0; i < count; i++)
        shown[i] = octets[i] >= ' ' && octets[i] <= '~' ? (char)octets[i] : '.';
    shown[count] = '\0';
    return shown;
}

int words_part(char *line, char *words[], int most)
{
    static const char blanks[] = " \t\r\n";
    int count = 0;
    for (;;) {
        line += strspn(line, blanks);
        if (*line == '\0')
            return count;
        if (count == most)
            return -1;
        words[count++] = line;
        line += strcspn(line, blanks);
        if (*line != '\0')
            *line++ = '\0';
    }
}

int words_read_place(char *words[], struct words_place *place, uint8_t *octets, size_t most)
{
    unsigned long slot, subslot;
    long length = words_octets(words[2], octets, most);
    if (!words_number(words[0], 65535, &slot) || !words_number(words[1], 65535, &subslot) || length < 0)
        return 0;
    *place = (struct words_place){(uint16_t)slot, (uint16_t)subslot, (size_t)length};
    return 1;
}

int words_read_status(char *words[], uint16_t *slot, uint16_t *subslot, int *is_good)
{
    unsigned long numbers[2];
    if (!words_number(words[0], 65535, &numbers[0]) || !words_number(words[1], 65535, &numbers[1]))
        return 0;
    *slot = (uint16_t)numbers[0];
    *subslot = (uint16_t)numbers[1];
    *is_good = strcmp(words[2], "good") == 0;
    return *is_good || strcmp(words[2], "bad") == 0;
}

int words_numbers(char *words[], uint16_t *numbers, unsigned count)
{
    for (unsigned i = 0; i < count; i++) {
        unsigned long number;
        if (!words_number(words[i], 65535, &number))
            return 0;
        numbers[i] = (uint16_t)number;
    }
    return 1;
}

void words_json(char *text, const uint8_t *octets, size_t size)
{
    *text++ = '"';
    for (size_t i = 0; i < size; i++) {
        if (octets[i] >= ' ' && octets[i] <= '~' && octets[i] != '"' && octets[i] != '\\')
            *text++ = (char)octets[i];
        else
            text += sprintf(text, "\\u%04x", octets[i]);
    }
    strcpy(text, "\"");
}

void words_hex(char *text, const uint8_t *octets, size_t length)
{
    static const char digits[] = "0123456789abcdef";
    for (size_t i = 0; i < length; i++) {
        text[2 * i] = digits[octets[i] >> 4];
        text[2 * i + 1] = digits[octets[i] & 15];
    }
    text[2 * length] = '\0';
}

void words_labelled(char *text, size_t size, const char *label, const uint8_t *octets, size_t length)
{
    int head = snprintf(text, size, "%s ", label);
    if (head > 0 && (size_t)head + 2 * length + 1 <= size)
        words_hex(text + head, octets, length);
}
