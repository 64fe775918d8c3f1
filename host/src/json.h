/* Goes through the text of a JSON value that is known to be valid, for messages about a catalogue. Nothing is copied but the beginnings of texts. */
#ifndef HOST_JSON_H
#define HOST_JSON_H

/* The part of a text that was not passed yet. */
struct json {
    const char *at;
    const char *end;
};

/* The beginning of a string. */
#define JSON_TEXT 60
struct json_text {
    char octets[JSON_TEXT + 1]; /* what cannot be shown is `?` */
    int has_escape;
};

/* The next character that is no space; it stays the next one. 0 at the end. */
char json_next(struct json *json);

/* Passes a character if it is the next one. Returns whether it was. */
int json_take(struct json *json, char wanted);

/* Passes a string. */
void json_string(struct json *json, struct json_text *text);

/* Passes a value. */
void json_pass(struct json *json);

/* The value at a key of an object: of several the last one. Returns whether there is one. */
int json_member(struct json object, const char *key, struct json *value);

/* The first entry of a list, and the one after an entry. Returns whether there is one; a value that is no list has none. */
int json_first(struct json list, struct json *entry);
int json_further(struct json *entry);

#endif
