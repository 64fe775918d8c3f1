#include "texts.h"
#include "say.h"
#include <stdlib.h>
#include <string.h>
#ifdef HAVE_JANSSON
#include <jansson.h>

/* Room for one more entry. The lists grow by doubling. */
static void *grown(void *list, unsigned count, size_t size)
{
    if ((count & (count - 1)) != 0)
        return list;
    list = realloc(list, (count == 0 ? 1 : 2 * (size_t)count) * size);
    if (list == NULL)
        fail(STATUS_SYSTEM, "out of memory");
    return list;
}

/* Copies a text: control characters become blanks, and it is cut before a letter that does not fit. */
static void copy(char text[TEXTS_LONGEST + 1], const char *given)
{
    size_t length = strlen(given);
    if (length > TEXTS_LONGEST)
        for (length = TEXTS_LONGEST; length != 0 && ((unsigned char)given[length] & 0xC0) == 0x80;)
            length--;
    for (size_t i = 0; i < length; i++)
        text[i] = (char)((unsigned char)given[i] < ' ' || given[i] == 0x7F ? ' ' : given[i]);
    text[length] = '\0';
}

static const char *text_at(const json_t *tree, const char *key)
{
    const char *text = json_string_value(json_object_get(tree, key));
    return text == NULL ? "" : text;
}

/* The number from 0 to 65,535 at a key, or -1. */
static int32_t number_at(const json_t *tree, const char *key)
{
    const json_t *value = json_object_get(tree, key);
    return json_is_integer(value) && json_integer_value(value) >= 0 && json_integer_value(value) <= 65535 ? (int32_t)json_integer_value(value) : -1;
}

/* --- Modules --- */

static void add_place(struct texts *texts, int32_t slot, int32_t subslot, const char *text)
{
    struct texts_place *place;
    if (*text == '\0')
        return;
    texts->places = grown(texts->places, texts->place_count, sizeof *texts->places);
    place = &texts->places[texts->place_count++];
    place->slot = (uint16_t)slot;
    place->subslot = subslot;
    copy(place->text, text);
}

static void add_module(struct texts *texts, int32_t slot, const json_t *module)
{
    const json_t *parts = json_object_get(module, "VirtualSubmoduleItem");
    add_place(texts, slot, -1, text_at(module, "Name"));
    for (size_t i = 0; i < json_array_size(parts); i++) {
        const json_t *part = json_array_get(parts, i);
        if (number_at(part, "Subslot") >= 0)
            add_place(texts, slot, number_at(part, "Subslot"), text_at(part, "Name"));
    }
}

static const json_t *module_of(const json_t *modules, const char *id)
{
    for (size_t i = 0; i < json_array_size(modules); i++)
        if (strcmp(text_at(json_array_get(modules, i), "ID"), id) == 0)
            return json_array_get(modules, i);
    return NULL;
}

static void add_modules(struct texts *texts, const json_t *tree)
{
    const json_t *slots = json_object_get(json_object_get(tree, "Project"), "Slots");
    add_module(texts, 0, json_object_get(tree, "DeviceAccessPointItem"));
    for (size_t i = 0; i < json_array_size(slots); i++) {
        const json_t *slot = json_array_get(slots, i);
        if (number_at(slot, "Slot") >= 0)
            add_module(texts, number_at(slot, "Slot"), module_of(json_object_get(tree, "ModuleItem"), text_at(slot, "ModuleItemTarget")));
    }
}

/* --- Errors --- */

static void add_error(struct texts *texts, int32_t error, int32_t extended, const char *text)
{
    struct texts_error *one;
    if (*text == '\0' || error < 0)
        return;
    texts->errors = grown(texts->errors, texts->error_count, sizeof *texts->errors);
    one = &texts->errors[texts->error_count++];
    one->error = (uint16_t)error;
    one->extended = extended;
    copy(one->text, text);
}

static void add_errors(struct texts *texts, const json_t *list)
{
    for (size_t i = 0; i < json_array_size(list); i++) {
        const json_t *one = json_array_get(list, i), *others = json_object_get(one, "ExtChannelDiagList");
        add_error(texts, number_at(one, "ErrorType"), -1, text_at(one, "Name"));
        for (size_t k = 0; k < json_array_size(others); k++)
            if (number_at(json_array_get(others, k), "ErrorType") >= 0)
                add_error(texts, number_at(one, "ErrorType"), number_at(json_array_get(others, k), "ErrorType"), text_at(json_array_get(others, k), "Name"));
    }
}

void texts_read(struct texts *texts, const char *file)
{
    json_t *tree = json_load_file(file, JSON_ALLOW_NUL, NULL);
    memset(texts, 0, sizeof *texts);
    add_modules(texts, tree);
    add_errors(texts, json_object_get(tree, "ChannelDiagList"));
    json_decref(tree);
}

#else

void texts_read(struct texts *texts, const char *file)
{
    (void)file;
    memset(texts, 0, sizeof *texts);
}

#endif

const char *texts_error(const struct texts *texts, unsigned error, long extended)
{
    for (unsigned i = 0; i < texts->error_count; i++)
        if (texts->errors[i].error == error && texts->errors[i].extended == extended)
            return texts->errors[i].text;
    return "";
}
