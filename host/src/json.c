#include "json.h"
#include <ctype.h>
#include <string.h>

char json_next(struct json *json)
{
    while (json->at < json->end && *json->at != '\0' && strchr(" \t\r\n", *json->at) != NULL)
        json->at++;
    return json->at < json->end ? *json->at : '\0';
}

int json_take(struct json *json, char wanted)
{
    int is_there = json_next(json) == wanted && wanted != '\0';
    if (is_there) /* of a value that is absent `at` is null, to which nothing may be added */
        json->at++;
    return is_there;
}

void json_string(struct json *json, struct json_text *text)
{
    size_t length = 0;
    text->has_escape = 0;
    json_take(json, '"');
    while (json->at < json->end && *json->at != '"') {
        char letter = *json->at;
        if (length < JSON_TEXT)
            text->octets[length++] = letter != '\\' && isprint((unsigned char)letter) ? letter : '?';
        text->has_escape |= letter == '\\';
        json->at += letter == '\\' && json->end - json->at > 1 ? 2 : 1;
    }
    text->octets[length] = '\0';
    json_take(json, '"');
}

void json_pass(struct json *json)
{
    struct json_text text;
    unsigned depth = 0;
    do {
        char letter = json_next(json);
        if (letter == '"') {
            json_string(json, &text);
            continue;
        }
        if (depth == 0 && (letter == ',' || letter == '}' || letter == ']'))
            return; /* the end of a number or a word */
        depth += letter == '{' || letter == '[';
        depth -= letter == '}' || letter == ']';
        if (json->at < json->end)
            json->at++;
    } while (json->at < json->end && (depth != 0 || strchr(",}]", json_next(json)) == NULL));
}

int json_member(struct json object, const char *key, struct json *value)
{
    struct json_text name;
    int is_found = 0;
    if (!json_take(&object, '{'))
        return 0;
    while (json_next(&object) == '"') {
        json_string(&object, &name);
        json_take(&object, ':');
        if (!name.has_escape && strcmp(name.octets, key) == 0) {
            *value = object;
            is_found = 1;
        }
        json_pass(&object);
        json_take(&object, ',');
    }
    return is_found;
}

int json_first(struct json list, struct json *entry)
{
    *entry = list;
    return json_take(entry, '[') && json_next(entry) != ']' && json_next(entry) != '\0';
}

int json_further(struct json *entry)
{
    json_pass(entry);
    return json_take(entry, ',');
}
