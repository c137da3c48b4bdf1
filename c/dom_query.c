/* What dom_query.h describes, over the proved functions dq_proved_* of crates/dom_query_c.
 *
 * This file isn't proved. It refuses null pointers, gives the proved functions memory to write into, and takes each answer
 * at once, within the call that asked for it: what a proved function found is kept in its handle until it is taken, and is
 * given back before the call ends. */
#include "../include/dom_query.h"

#include <pthread.h>
#include <stdlib.h>
#include <string.h>

/* A text or numbers as Rattle takes them: a pointer, and then a length. */
typedef const uint8_t *bytes_at;
#define HANDLE dq_document *
#define POLICY dq_policy *
#define READER dq_reader *

int64_t dq_proved_parse_page(HANDLE, bytes_at, size_t, size_t);
int64_t dq_proved_parse_bytes(HANDLE, bytes_at, size_t, bytes_at, size_t, size_t);
int64_t dq_proved_parse(HANDLE, bytes_at, size_t);
int64_t dq_proved_parse_fragment(HANDLE, bytes_at, size_t, bytes_at, size_t);
int64_t dq_proved_encoding(HANDLE, uint8_t *, size_t);
int64_t dq_proved_encoding_source(HANDLE);
int64_t dq_proved_replaced(HANDLE);
void dq_proved_free(HANDLE);
int64_t dq_proved_select(HANDLE, uint32_t, bytes_at, size_t, uint32_t *, size_t);
int64_t dq_proved_select_first(HANDLE, uint32_t, bytes_at, size_t);
int64_t dq_proved_matches(HANDLE, uint32_t, bytes_at, size_t);
int64_t dq_proved_step(HANDLE, uint32_t, uint32_t);
int64_t dq_proved_list(HANDLE, uint32_t, uint32_t, uint32_t *, size_t);
int64_t dq_proved_contents(HANDLE, uint32_t);
int64_t dq_proved_found(HANDLE, uint32_t *, size_t);
int64_t dq_proved_text(HANDLE, uint32_t, uint8_t *, size_t);
int64_t dq_proved_html(HANDLE, uint32_t, uint8_t *, size_t);
int64_t dq_proved_inner_html(HANDLE, uint32_t, uint8_t *, size_t);
int64_t dq_proved_markdown(HANDLE, uint32_t, uint8_t *, size_t);
int64_t dq_proved_md(HANDLE, uint32_t, uint8_t *, size_t);
int64_t dq_proved_formatted_text(HANDLE, uint32_t, uint8_t *, size_t);
int64_t dq_proved_name(HANDLE, uint32_t, uint8_t *, size_t);
int64_t dq_proved_attr(HANDLE, uint32_t, bytes_at, size_t, uint8_t *, size_t);
int64_t dq_proved_kind(HANDLE, uint32_t);
int64_t dq_proved_taken(HANDLE, uint8_t *, size_t);
int64_t dq_proved_lengths(HANDLE, uint32_t *, size_t);
int64_t dq_proved_forget(HANDLE);
int64_t dq_proved_attrs(HANDLE, uint32_t);
int64_t dq_proved_classes(HANDLE, uint32_t);
int64_t dq_proved_select_texts(HANDLE, uint32_t, bytes_at, size_t);
int64_t dq_proved_select_html(HANDLE, uint32_t, bytes_at, size_t);
int64_t dq_proved_select_attrs(HANDLE, uint32_t, bytes_at, size_t, bytes_at, size_t);
int64_t dq_proved_set_attr(HANDLE, uint32_t, bytes_at, size_t, bytes_at, size_t);
int64_t dq_proved_remove_attr(HANDLE, uint32_t, bytes_at, size_t);
int64_t dq_proved_rename(HANDLE, uint32_t, bytes_at, size_t);
int64_t dq_proved_set_text(HANDLE, uint32_t, bytes_at, size_t);
int64_t dq_proved_put_html(HANDLE, uint32_t, uint32_t, bytes_at, size_t);
int64_t dq_proved_new_element(HANDLE, bytes_at, size_t);
int64_t dq_proved_new_text(HANDLE, bytes_at, size_t);
int64_t dq_proved_move(HANDLE, uint32_t, uint32_t, uint32_t);
int64_t dq_proved_remove(HANDLE, uint32_t);
int64_t dq_proved_unwrap(HANDLE, uint32_t);
int64_t dq_proved_normalize(HANDLE, uint32_t);
int64_t dq_proved_article(HANDLE, HANDLE);
int64_t dq_proved_sanitize(HANDLE, bytes_at, size_t, bytes_at, size_t, bytes_at, size_t);
size_t dq_proved_fault_byte(const dq_document *);
size_t dq_proved_fault_text(int64_t, uint8_t *, size_t);
int64_t dq_proved_policy_empty(POLICY);
int64_t dq_proved_policy_common(POLICY);
int64_t dq_proved_policy_preset(POLICY, uint32_t);
int64_t dq_proved_policy_rule(POLICY, uint32_t, bytes_at, size_t);
int64_t dq_proved_policy_attribute_of(POLICY, bytes_at, size_t, bytes_at, size_t);
int64_t dq_proved_policy_disallow_attribute_of(POLICY, bytes_at, size_t, bytes_at, size_t);
int64_t dq_proved_policy_value(POLICY, bytes_at, size_t, bytes_at, size_t, bytes_at, size_t);
int64_t dq_proved_policy_base(POLICY, bytes_at, size_t);
int64_t dq_proved_policy_set(POLICY, uint32_t, size_t);
int64_t dq_proved_policy_finish(POLICY);
int64_t dq_proved_policy_taken(POLICY, uint8_t *, size_t);
int64_t dq_proved_policy_forget(POLICY);
void dq_proved_policy_free(POLICY);
int64_t dq_proved_clean(POLICY, bytes_at, size_t, uint8_t *, size_t);
int64_t dq_proved_clean_page(POLICY, bytes_at, size_t, uint8_t *, size_t);
int64_t dq_proved_clean_document(POLICY, HANDLE, uint8_t *, size_t);
int64_t dq_proved_reader_begin(READER, bytes_at, size_t, size_t);
int64_t dq_proved_reader_feed(READER, bytes_at, size_t);
int64_t dq_proved_reader_end(READER, HANDLE);
void dq_proved_reader_free(READER);

/* ---- What is given. */

/* Whether there is a text of that length at the pointer. */
static bool is_text(const void *bytes, size_t length) {
    return length == 0 || (bytes && length <= PTRDIFF_MAX);
}

/* The pointer to a text, which is never null. */
static bytes_at at(const void *bytes) {
    return bytes ? (bytes_at)bytes : (bytes_at)"";
}

#define WANT(is_there) \
    do { \
        if (!(is_there)) return DQ_NULL; \
    } while (0)
#define WANT_TEXT(name) WANT(is_text(name, name##_length))
#define TEXT(name) at(name), name##_length

/* ---- Locks, which are those of POSIX threads: where all bytes are 0, one is open. A lock is held for one call of this
 * file, so that no other code runs meanwhile, and no thread holds one while it waits for another, except that
 * dq_clean_document takes that of the policy before that of the document. */

_Static_assert(sizeof(pthread_mutex_t) <= sizeof(dq_lock), "dq_lock is too small");

static void lock(dq_lock *of) {
    pthread_mutex_lock((pthread_mutex_t *)(void *)of->words);
}

static void unlock(dq_lock *of) {
    pthread_mutex_unlock((pthread_mutex_t *)(void *)of->words);
}

#define GIVE(handle, call) \
    WANT(handle); \
    lock(&handle->lock); \
    int64_t answer = call; \
    unlock(&handle->lock); \
    return answer

/* ---- What is answered. */

enum { LEAST = 120 };

/* Room for that many bytes and a 0. */
static bool make_room(dq_string *string, size_t length) {
    if (string->bytes && string->room > length) return true;
    size_t room = length < LEAST ? LEAST : length + length / 8 + 1;
    char *bytes = realloc(string->bytes, room);
    if (!bytes) return false;
    string->bytes = bytes;
    string->room = room;
    return true;
}

static bool make_room_for_nodes(dq_nodes *nodes, size_t count) {
    if (nodes->numbers && nodes->room >= count) return true;
    size_t room = count < LEAST / 4 ? LEAST / 4 : count + count / 8;
    uint32_t *numbers = realloc(nodes->numbers, room * sizeof *numbers);
    if (!numbers) return false;
    nodes->numbers = numbers;
    nodes->room = room;
    return true;
}

static bool make_room_for_items(dq_strings *strings, size_t count) {
    if (strings->items && strings->room >= count) return true;
    size_t room = count < LEAST / 4 ? LEAST / 4 : count + count / 8;
    dq_view *items = realloc(strings->items, room * sizeof *items);
    if (!items) return false;
    strings->items = items;
    strings->room = room;
    return true;
}

/* The answer becomes the empty text. */
static int64_t no_text(dq_string *string, int64_t fault) {
    string->length = 0;
    if (string->bytes) string->bytes[0] = 0;
    return fault;
}

/* Asks for the text that was taken last: its length. */
typedef int64_t taking(void *, uint8_t *, size_t);

static int64_t of_document(void *document, uint8_t *text, size_t room) {
    return dq_proved_taken(document, text, room);
}

static int64_t of_policy(void *policy, uint8_t *text, size_t room) {
    return dq_proved_policy_taken(policy, text, room);
}

/* The answer becomes the text of that length, of which the string has as much as fitted. */
static int64_t take(void *handle, taking *taken, int64_t length, dq_string *string) {
    if (length < 0) return no_text(string, length);
    if ((size_t)length >= string->room) {
        if (!make_room(string, (size_t)length)) return no_text(string, DQ_MEMORY);
        taken(handle, (uint8_t *)string->bytes, (size_t)length);
    }
    string->length = (size_t)length;
    string->bytes[length] = 0;
    return length;
}

/* A text of a document: `call` writes into the string as much as fits. */
#define GIVE_TEXT(document, string, call) \
    WANT(document && string); \
    if (!make_room(string, 0)) return no_text(string, DQ_MEMORY); \
    lock(&document->lock); \
    int64_t answer = take(document, of_document, call, string); \
    dq_proved_forget(document); \
    unlock(&document->lock); \
    return answer
#define INTO(string) (uint8_t *)(string)->bytes, (string)->room - 1

#define GIVE_NODES(document, nodes, call) \
    WANT(document && nodes); \
    nodes->count = 0; \
    if (!make_room_for_nodes(nodes, 0)) return DQ_MEMORY; \
    lock(&document->lock); \
    int64_t answer = take_nodes(document, call, nodes); \
    dq_proved_forget(document); \
    unlock(&document->lock); \
    return answer

static int64_t take_nodes(dq_document *document, int64_t count, dq_nodes *nodes) {
    if (count < 0) return count;
    if ((size_t)count > nodes->room) {
        if (!make_room_for_nodes(nodes, (size_t)count)) return DQ_MEMORY;
        dq_proved_found(document, nodes->numbers, nodes->room);
    }
    nodes->count = (size_t)count;
    return count;
}

/* Cuts the joined texts at their lengths. */
static void cut(dq_strings *strings, size_t count) {
    const char *text = strings->joined.bytes;
    for (size_t i = 0; i < count; i++) {
        uint32_t length = strings->lengths.numbers[i];
        bool is_there = length != DQ_NO_TEXT;
        strings->items[i].bytes = is_there ? text : NULL;
        strings->items[i].length = is_there ? length : 0;
        if (is_there) text += length;
    }
    strings->count = count;
}

static int64_t take_strings(dq_document *document, int64_t answer, dq_strings *strings) {
    if (answer < 0) return answer;
    size_t count = (size_t)answer;
    if (!make_room_for_nodes(&strings->lengths, count) || !make_room_for_items(strings, count)) return DQ_MEMORY;
    dq_proved_lengths(document, strings->lengths.numbers, strings->lengths.room);
    strings->lengths.count = count;
    if (!make_room(&strings->joined, 0)) return DQ_MEMORY;
    int64_t length = take(document, of_document, dq_proved_taken(document, INTO(&strings->joined)), &strings->joined);
    if (length < 0) return length;
    cut(strings, count);
    return answer;
}

#define GIVE_STRINGS(document, strings, call) \
    WANT(document && strings); \
    strings->count = strings->lengths.count = 0; \
    no_text(&strings->joined, 0); \
    lock(&document->lock); \
    int64_t answer = take_strings(document, call, strings); \
    dq_proved_forget(document); \
    unlock(&document->lock); \
    return answer

void dq_string_free(dq_string *string) {
    if (!string) return;
    free(string->bytes);
    *string = (dq_string)DQ_STRING_INIT;
}

void dq_nodes_free(dq_nodes *nodes) {
    if (!nodes) return;
    free(nodes->numbers);
    *nodes = (dq_nodes)DQ_NODES_INIT;
}

void dq_strings_free(dq_strings *strings) {
    if (!strings) return;
    free(strings->items);
    dq_string_free(&strings->joined);
    dq_nodes_free(&strings->lengths);
    *strings = (dq_strings)DQ_STRINGS_INIT;
}

/* ---- Reading. */

int64_t dq_parse_page(dq_document *document, const char *html, size_t html_length, size_t max_depth) {
    WANT_TEXT(html);
    GIVE(document, dq_proved_parse_page(document, TEXT(html), max_depth));
}

int64_t dq_parse_bytes(dq_document *document, const void *bytes, size_t bytes_length, const char *label, size_t label_length, size_t max_depth) {
    WANT_TEXT(bytes);
    WANT_TEXT(label);
    GIVE(document, dq_proved_parse_bytes(document, TEXT(bytes), TEXT(label), max_depth));
}

/* Says at which byte of markup a fault was met, and passes it on. */
static int64_t at_byte(dq_document *document, int64_t answer, size_t *fault_byte) {
    if (fault_byte) *fault_byte = answer < 0 ? dq_proved_fault_byte(document) : 0;
    return answer;
}

int64_t dq_parse(dq_document *document, const char *html, size_t html_length, size_t *fault_byte) {
    WANT_TEXT(html);
    GIVE(document, at_byte(document, dq_proved_parse(document, TEXT(html)), fault_byte));
}

int64_t dq_parse_fragment(dq_document *document, const char *html, size_t html_length, const char *context, size_t context_length) {
    WANT_TEXT(html);
    WANT_TEXT(context);
    GIVE(document, dq_proved_parse_fragment(document, TEXT(html), TEXT(context)));
}

void dq_document_free(dq_document *document) {
    if (!document) return;
    lock(&document->lock);
    dq_proved_free(document);
    unlock(&document->lock);
}

int64_t dq_reader_begin(dq_reader *reader, const char *label, size_t label_length, size_t max_depth) {
    WANT_TEXT(label);
    GIVE(reader, dq_proved_reader_begin(reader, TEXT(label), max_depth));
}

int64_t dq_reader_feed(dq_reader *reader, const void *bytes, size_t bytes_length) {
    WANT_TEXT(bytes);
    GIVE(reader, dq_proved_reader_feed(reader, TEXT(bytes)));
}

int64_t dq_reader_end(dq_reader *reader, dq_document *document) {
    WANT(reader && document);
    lock(&reader->lock);
    lock(&document->lock);
    int64_t answer = dq_proved_reader_end(reader, document);
    unlock(&document->lock);
    unlock(&reader->lock);
    return answer;
}

void dq_reader_free(dq_reader *reader) {
    if (!reader) return;
    lock(&reader->lock);
    dq_proved_reader_free(reader);
    unlock(&reader->lock);
}

/* ---- Finding nodes. */

int64_t dq_select(dq_document *document, uint32_t root, const char *selectors, size_t selectors_length, dq_nodes *nodes) {
    WANT_TEXT(selectors);
    GIVE_NODES(document, nodes, dq_proved_select(document, root, TEXT(selectors), nodes->numbers, nodes->room));
}

int64_t dq_select_first(dq_document *document, uint32_t root, const char *selectors, size_t selectors_length) {
    WANT_TEXT(selectors);
    GIVE(document, dq_proved_select_first(document, root, TEXT(selectors)));
}

int64_t dq_matches(dq_document *document, uint32_t node, const char *selectors, size_t selectors_length) {
    WANT_TEXT(selectors);
    GIVE(document, dq_proved_matches(document, node, TEXT(selectors)));
}

int64_t dq_step(dq_document *document, uint32_t node, dq_direction direction) {
    GIVE(document, dq_proved_step(document, node, (uint32_t)direction));
}

int64_t dq_list(dq_document *document, uint32_t node, dq_axis axis, dq_nodes *nodes) {
    GIVE_NODES(document, nodes, dq_proved_list(document, node, (uint32_t)axis, nodes->numbers, nodes->room));
}

int64_t dq_template_contents(dq_document *document, uint32_t node) {
    GIVE(document, dq_proved_contents(document, node));
}

/* Of a template the fragment that holds its contents; else the node itself. */
static uint32_t inside(dq_document *document, uint32_t node) {
    int64_t contents = dq_proved_contents(document, node);
    return contents < 0 ? node : (uint32_t)contents;
}

/* ---- Reading nodes. */

int64_t dq_text(dq_document *document, uint32_t node, dq_string *text) {
    GIVE_TEXT(document, text, dq_proved_text(document, node, INTO(text)));
}

int64_t dq_html(dq_document *document, uint32_t node, dq_string *html) {
    GIVE_TEXT(document, html, dq_proved_html(document, node, INTO(html)));
}

int64_t dq_inner_html(dq_document *document, uint32_t node, dq_string *html) {
    GIVE_TEXT(document, html, dq_proved_inner_html(document, inside(document, node), INTO(html)));
}

int64_t dq_markdown(dq_document *document, uint32_t node, dq_string *markdown) {
    GIVE_TEXT(document, markdown, dq_proved_markdown(document, node, INTO(markdown)));
}

int64_t dq_md(dq_document *document, uint32_t node, dq_string *markdown) {
    GIVE_TEXT(document, markdown, dq_proved_md(document, node, INTO(markdown)));
}

int64_t dq_formatted_text(dq_document *document, uint32_t node, dq_string *text) {
    GIVE_TEXT(document, text, dq_proved_formatted_text(document, node, INTO(text)));
}

int64_t dq_name(dq_document *document, uint32_t node, dq_string *name) {
    GIVE_TEXT(document, name, dq_proved_name(document, node, INTO(name)));
}

int64_t dq_attr(dq_document *document, uint32_t node, const char *name, size_t name_length, dq_string *value) {
    WANT_TEXT(name);
    GIVE_TEXT(document, value, dq_proved_attr(document, node, TEXT(name), INTO(value)));
}

int64_t dq_kind(dq_document *document, uint32_t node) {
    GIVE(document, dq_proved_kind(document, node));
}

int64_t dq_encoding(dq_document *document, dq_string *name) {
    GIVE_TEXT(document, name, dq_proved_encoding(document, INTO(name)));
}

int64_t dq_encoding_source(dq_document *document) {
    GIVE(document, dq_proved_encoding_source(document));
}

int64_t dq_replaced_count(dq_document *document) {
    GIVE(document, dq_proved_replaced(document));
}

int64_t dq_attrs(dq_document *document, uint32_t node, dq_strings *names_and_values) {
    GIVE_STRINGS(document, names_and_values, dq_proved_attrs(document, node));
}

int64_t dq_classes(dq_document *document, uint32_t node, dq_strings *classes) {
    GIVE_STRINGS(document, classes, dq_proved_classes(document, node));
}

int64_t dq_select_texts(dq_document *document, uint32_t root, const char *selectors, size_t selectors_length, dq_strings *texts) {
    WANT_TEXT(selectors);
    GIVE_STRINGS(document, texts, dq_proved_select_texts(document, root, TEXT(selectors)));
}

int64_t dq_select_html(dq_document *document, uint32_t root, const char *selectors, size_t selectors_length, dq_strings *html) {
    WANT_TEXT(selectors);
    GIVE_STRINGS(document, html, dq_proved_select_html(document, root, TEXT(selectors)));
}

int64_t dq_select_attrs(dq_document *document, uint32_t root, const char *selectors, size_t selectors_length, const char *name, size_t name_length, dq_strings *values) {
    WANT_TEXT(selectors);
    WANT_TEXT(name);
    GIVE_STRINGS(document, values, dq_proved_select_attrs(document, root, TEXT(selectors), TEXT(name)));
}

/* ---- Articles. */

enum { FIELDS = DQ_IMAGE + 1 };

/* The article goes into a handle of this call first: so no thread holds the locks of two documents, and both may be one. */
int64_t dq_article(dq_document *page, dq_document *article, dq_strings *fields) {
    WANT(page && article && fields);
    fields->count = fields->lengths.count = 0;
    no_text(&fields->joined, 0);
    dq_document made = DQ_DOCUMENT_INIT;
    lock(&page->lock);
    int64_t sure = dq_proved_article(page, &made);
    int64_t answer = sure < 0 ? sure : take_strings(page, FIELDS, fields);
    dq_proved_forget(page);
    unlock(&page->lock);
    if (answer < 0) {
        dq_proved_free(&made);
        return answer;
    }
    lock(&article->lock);
    dq_proved_free(article);
    article->at = made.at;
    article->byte = made.byte;
    article->full = made.full;
    unlock(&article->lock);
    return sure;
}

/* ---- Editing. */

int64_t dq_set_attr(dq_document *document, uint32_t node, const char *name, size_t name_length, const char *value, size_t value_length) {
    WANT_TEXT(name);
    WANT_TEXT(value);
    GIVE(document, dq_proved_set_attr(document, node, TEXT(name), TEXT(value)));
}

int64_t dq_remove_attr(dq_document *document, uint32_t node, const char *name, size_t name_length) {
    WANT_TEXT(name);
    GIVE(document, dq_proved_remove_attr(document, node, TEXT(name)));
}

int64_t dq_set_name(dq_document *document, uint32_t node, const char *name, size_t name_length) {
    WANT_TEXT(name);
    GIVE(document, dq_proved_rename(document, node, TEXT(name)));
}

int64_t dq_set_text(dq_document *document, uint32_t node, const char *text, size_t text_length) {
    WANT_TEXT(text);
    GIVE(document, dq_proved_set_text(document, node, TEXT(text)));
}

#define put_html(document, node, place, ...) dq_proved_put_html(document, node, (uint32_t)(place), __VA_ARGS__)

int64_t dq_put_html(dq_document *document, uint32_t node, dq_place place, const char *html, size_t html_length, size_t *fault_byte) {
    WANT_TEXT(html);
    bool is_inside = place == DQ_AS_CONTENTS || place == DQ_AT_END || place == DQ_AT_FRONT;
    GIVE(document, at_byte(document, put_html(document, is_inside ? inside(document, node) : node, place, TEXT(html)), fault_byte));
}

int64_t dq_new_element(dq_document *document, const char *name, size_t name_length) {
    WANT_TEXT(name);
    GIVE(document, dq_proved_new_element(document, TEXT(name)));
}

int64_t dq_new_text(dq_document *document, const char *text, size_t text_length) {
    WANT_TEXT(text);
    GIVE(document, dq_proved_new_text(document, TEXT(text)));
}

int64_t dq_move(dq_document *document, uint32_t node, dq_place place, uint32_t target) {
    GIVE(document, dq_proved_move(document, node, (uint32_t)place, target));
}

int64_t dq_remove(dq_document *document, uint32_t node) {
    GIVE(document, dq_proved_remove(document, node));
}

int64_t dq_unwrap(dq_document *document, uint32_t node) {
    GIVE(document, dq_proved_unwrap(document, node));
}

int64_t dq_normalize(dq_document *document, uint32_t node) {
    GIVE(document, dq_proved_normalize(document, node));
}

int64_t dq_sanitize(dq_document *document, const char *elements, size_t elements_length, const char *attributes, size_t attributes_length, const char *dropped, size_t dropped_length) {
    WANT_TEXT(elements);
    WANT_TEXT(attributes);
    WANT_TEXT(dropped);
    GIVE(document, dq_proved_sanitize(document, TEXT(elements), TEXT(attributes), TEXT(dropped)));
}

/* ---- Policies. */

/* A rule whose text is null refuses the policy, as every other fault of a rule does. */
static int64_t refused(dq_policy *policy) {
    lock(&policy->lock);
    dq_proved_policy_rule(policy, UINT32_MAX, at(NULL), 0);
    unlock(&policy->lock);
    return DQ_NULL;
}

#define WANT_RULE(name) \
    do { \
        WANT(policy); \
        if (!is_text(name, name##_length)) return refused(policy); \
    } while (0)

int64_t dq_policy_empty(dq_policy *policy) {
    GIVE(policy, dq_proved_policy_empty(policy));
}

int64_t dq_policy_common(dq_policy *policy) {
    GIVE(policy, dq_proved_policy_common(policy));
}

int64_t dq_policy_preset(dq_policy *policy, dq_preset preset) {
    GIVE(policy, dq_proved_policy_preset(policy, (uint32_t)preset));
}

int64_t dq_policy_rule(dq_policy *policy, dq_rule rule, const char *text, size_t text_length) {
    WANT_RULE(text);
    GIVE(policy, dq_proved_policy_rule(policy, (uint32_t)rule, TEXT(text)));
}

int64_t dq_policy_attribute_of(dq_policy *policy, const char *element, size_t element_length, const char *name, size_t name_length) {
    WANT_RULE(element);
    WANT_RULE(name);
    GIVE(policy, dq_proved_policy_attribute_of(policy, TEXT(element), TEXT(name)));
}

int64_t dq_policy_disallow_attribute_of(dq_policy *policy, const char *element, size_t element_length, const char *name, size_t name_length) {
    WANT_RULE(element);
    WANT_RULE(name);
    GIVE(policy, dq_proved_policy_disallow_attribute_of(policy, TEXT(element), TEXT(name)));
}

int64_t dq_policy_value(dq_policy *policy, const char *element, size_t element_length, const char *name, size_t name_length, const char *value, size_t value_length) {
    WANT_RULE(element);
    WANT_RULE(name);
    WANT_RULE(value);
    GIVE(policy, dq_proved_policy_value(policy, TEXT(element), TEXT(name), TEXT(value)));
}

int64_t dq_policy_base(dq_policy *policy, const char *url, size_t url_length) {
    WANT_RULE(url);
    GIVE(policy, dq_proved_policy_base(policy, TEXT(url)));
}

int64_t dq_policy_set(dq_policy *policy, dq_setting setting, size_t number) {
    GIVE(policy, dq_proved_policy_set(policy, (uint32_t)setting, number));
}

int64_t dq_policy_finish(dq_policy *policy, dq_string *why) {
    WANT(policy);
    if (why) no_text(why, 0);
    lock(&policy->lock);
    int64_t answer = dq_proved_policy_finish(policy);
    if (answer < 0 && why && make_room(why, 0)) {
        take(policy, of_policy, dq_proved_policy_taken(policy, INTO(why)), why);
    }
    dq_proved_policy_forget(policy);
    unlock(&policy->lock);
    return answer;
}

void dq_policy_free(dq_policy *policy) {
    if (!policy) return;
    lock(&policy->lock);
    dq_proved_policy_free(policy);
    unlock(&policy->lock);
}

#define GIVE_CLEANED(policy, string, call) \
    WANT(policy && string); \
    if (!make_room(string, 0)) return no_text(string, DQ_MEMORY); \
    lock(&policy->lock); \
    int64_t answer = take(policy, of_policy, call, string); \
    dq_proved_policy_forget(policy); \
    unlock(&policy->lock); \
    return answer

int64_t dq_clean(dq_policy *policy, const char *html, size_t html_length, dq_string *cleaned) {
    WANT_TEXT(html);
    GIVE_CLEANED(policy, cleaned, dq_proved_clean(policy, TEXT(html), INTO(cleaned)));
}

int64_t dq_clean_page(dq_policy *policy, const char *html, size_t html_length, dq_string *cleaned) {
    WANT_TEXT(html);
    GIVE_CLEANED(policy, cleaned, dq_proved_clean_page(policy, TEXT(html), INTO(cleaned)));
}

static int64_t clean_locked(dq_policy *policy, dq_document *document, dq_string *cleaned) {
    lock(&document->lock);
    int64_t answer = dq_proved_clean_document(policy, document, INTO(cleaned));
    unlock(&document->lock);
    return answer;
}

int64_t dq_clean_document(dq_policy *policy, dq_document *document, dq_string *cleaned) {
    WANT(document);
    GIVE_CLEANED(policy, cleaned, clean_locked(policy, document, cleaned));
}

/* ---- Faults, and the version. */

size_t dq_fault_text(int64_t fault, char *text, size_t room) {
    uint8_t none = 0;
    bool is_room = text && room > 0;
    size_t length = dq_proved_fault_text(fault, is_room ? (uint8_t *)text : &none, is_room ? room - 1 : 0);
    if (is_room) text[length < room ? length : room - 1] = 0;
    return length;
}

const char *dq_version(void) {
    return DQ_VERSION;
}
