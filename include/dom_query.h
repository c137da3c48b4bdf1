/* dom_query: HTML documents for C and C++.
 *
 * A document lies behind a handle, and a node of it is a number. Node 0 is the root of the document.
 * A number stays the number of its node for as long as the document lives, also when the node is
 * moved or detached.
 *
 * Answers. A function that may fail returns a number of 0 or more, or a fault below 0 (dq_fault). After a
 * fault the document is as it was before the call. What a function returns says its comment: a length in
 * bytes, a count, the number of a node, or 0.
 *
 * Texts. A text that is given is a pointer to bytes in UTF-8 and their count, without a 0 at its end; the
 * pointer may be null where the count is 0. A text that is not UTF-8 is refused as DQ_NOT_UTF8, except
 * in dq_parse_page, dq_parse_bytes and dq_reader_feed, which read any bytes.
 *
 * What is found goes into a dq_string, a dq_nodes or a dq_strings of the caller. It holds the answer of the
 * last call that it was given to, and no other call changes it. It grows as it must, may be given to any
 * number of calls one after the other, and is freed by dq_string_free, dq_nodes_free or dq_strings_free.
 * Its bytes end with a 0, which is not counted, so that they can be printed. After a fault it is empty.
 *
 * Null. A null pointer to a handle or to an answer is refused as DQ_NULL. Those that free take null.
 *
 * Memory. All memory comes from malloc and realloc, and goes back by free.
 *
 * Threads. Threads may share a document, a policy and a reader: a call waits until another call on the same handle has
 * ended. Calls on different handles run side by side. Each thread has answers of its own. No function may be called
 * from a handler of a signal of C.
 */
#ifndef DOM_QUERY_H
#define DOM_QUERY_H

#include <stdbool.h>
#include <stddef.h>
#include <stdint.h>

/* The version of this header; dq_version says which one the library has. */
#define DQ_VERSION_MAJOR 1
#define DQ_VERSION_MINOR 0
#define DQ_VERSION_PATCH 0
#define DQ_VERSION "1.0.0"
/* 10,000 times the first number, 100 times the second, and the third: 10000 is 1.0.0. */
#define DQ_VERSION_NUMBER 10000

/* What stands before each function. Define it before this header for another linkage. */
#ifndef DQ_API
#if defined(__GNUC__)
#define DQ_API __attribute__((visibility("default")))
#else
#define DQ_API
#endif
#endif

#ifdef __cplusplus
extern "C" {
#endif

/* ---- Handles. Begin with DQ_DOCUMENT_INIT and so on: all bytes 0 is a handle that holds nothing. Never copy
 * a handle, and never change its fields. */

/* What lets one thread wait for another. */
typedef struct dq_lock {
    uint64_t words[8];
} dq_lock;

/* A document, or none. */
typedef struct dq_document {
    void *at;
    size_t byte;
    bool full;
    dq_lock lock;
} dq_document;
#define DQ_DOCUMENT_INIT {NULL, 0, false, {{0}}}

/* A policy, or none: the rules by which HTML from strangers is cleaned. */
typedef struct dq_policy {
    void *at;
    bool full;
    dq_lock lock;
} dq_policy;
#define DQ_POLICY_INIT {NULL, false, {{0}}}

/* A page of which not all bytes have come yet, or none. */
typedef struct dq_reader {
    void *at;
    bool full;
    dq_lock lock;
} dq_reader;
#define DQ_READER_INIT {NULL, false, {{0}}}

/* ---- Answers. Read the fields that are named first; the others are the library's. */

/* A text: `length` bytes of UTF-8, and a 0 after them. */
typedef struct dq_string {
    char *bytes;
    size_t length;
    size_t room;
} dq_string;
#define DQ_STRING_INIT {NULL, 0, 0}

/* Nodes: `count` of their numbers. */
typedef struct dq_nodes {
    uint32_t *numbers;
    size_t count;
    size_t room;
} dq_nodes;
#define DQ_NODES_INIT {NULL, 0, 0}

/* A text in a dq_strings; its bytes are null where there is none. */
typedef struct dq_view {
    const char *bytes;
    size_t length;
} dq_view;

/* Several texts: `count` of them. */
typedef struct dq_strings {
    dq_view *items;
    size_t count;
    dq_string joined;  /* all texts, one after the other */
    dq_nodes lengths;  /* the length of each in bytes, or DQ_NO_TEXT */
    size_t room;
} dq_strings;
#define DQ_STRINGS_INIT {NULL, 0, DQ_STRING_INIT, DQ_NODES_INIT, 0}

/* The length of a text that isn't there. */
#define DQ_NO_TEXT UINT32_MAX

/* Free the memory of an answer, which is then empty and may be used again. Null is allowed. */
DQ_API void dq_string_free(dq_string *string);
DQ_API void dq_nodes_free(dq_nodes *nodes);
DQ_API void dq_strings_free(dq_strings *strings);

/* ---- Numbers that have names. */

/* Why a function gives no answer. dq_fault_text says it in English. */
typedef enum dq_fault {
    DQ_NOTHING = -1,          /* what was asked for isn't there: an attribute, a name, a neighbour, a match, an encoding */
    DQ_CLOSED = -2,           /* the handle holds no document or no policy */
    DQ_MEMORY = -3,           /* malloc gave no memory */
    DQ_NOT_UTF8 = -4,         /* a text isn't UTF-8 */
    DQ_ARGUMENT = -5,         /* a place, a direction, an axis, a rule or a setting isn't one of those below */
    DQ_NO_NODE = -6,          /* no node of the document has that number */
    DQ_TOO_MANY_NODES = -7,   /* a document has 4,294,967,295 nodes at most */
    DQ_NULL = -8,             /* a pointer is null, or a length is above PTRDIFF_MAX */
    DQ_NO_CHILDREN_HERE = -10,   /* edits: the node is a text, a comment, a doctype or an instruction */
    DQ_ROOT_OR_FRAGMENT = -11,   /* edits: the root, a document or a fragment would be moved or get siblings */
    DQ_CYCLE = -12,              /* edits: a node would be moved into itself or below itself */
    DQ_BAD_CONTENTS = -13,       /* edits: contents of a template that are no fragment of their own */
    DQ_BAD_NAME = -14,           /* edits: the tokenizer of the HTML Standard could not read the name, so that it would be read again as something else */
    DQ_BAD_KIND = -15,           /* edits: the node is not an element, or for dq_set_text neither an element nor a text */
    DQ_SELECTOR = -20,                /* the selector is malformed */
    DQ_UNKNOWN_PSEUDO_CLASS = -21,    /* the pseudo-class is unknown, or in the wrong form */
    DQ_SELECTOR_NUMBER = -22,         /* a number in the selector is above 2,147,483,647 */
    DQ_NESTED_HAS = -23,              /* :has inside :has */
    DQ_SELECTOR_TOO_DEEP = -24,       /* parentheses nest more than 64 deep */
    DQ_BAD_TAG = -30,           /* explicit markup: a tag can't be read */
    DQ_UNCLOSED = -31,          /* explicit markup: an element isn't closed */
    DQ_MISMATCHED_END = -32,    /* explicit markup: an end tag doesn't match the open element */
    DQ_STRAY_END = -33,         /* explicit markup: an end tag where no element is open */
    DQ_SLASH_ON_OPEN = -34,     /* explicit markup: a slash ends the tag of an element that isn't void */
    DQ_BAD_COMMENT = -35,       /* explicit markup: a comment can't be read */
    DQ_BAD_DECLARATION = -36,   /* explicit markup: a declaration can't be read */
    DQ_MISPLACED_DOCTYPE = -37, /* explicit markup: a doctype inside an element */
    DQ_INSTRUCTION = -38,       /* explicit markup: a processing instruction */
    DQ_UNKNOWN_LABEL = -40,     /* no encoding has that label */
    DQ_BAD_BASE = -41,          /* policies: the base is not an absolute URL */
    DQ_UNFINISHED = -42,        /* policies: dq_policy_finish was not called yet */
    DQ_FINISHED = -43,          /* policies: a rule was given to a finished policy */
    DQ_REFUSED_ELEMENT = -50,   /* policies: an element that can't be kept safely is allowed, as svg or script */
    DQ_REFUSED_TABLE = -51,     /* policies: table is allowed without tbody, tr or td */
    DQ_REFUSED_ATTRIBUTE = -52, /* policies: an attribute that can't be kept safely is allowed, as onclick or srcdoc */
    DQ_REFUSED_SCHEME = -53,    /* policies: a scheme that can't be kept safely is allowed, as javascript */
    DQ_REFUSED_BASE = -54,      /* policies: the scheme of the base is not allowed */
    DQ_REFUSED_REL = -55,       /* policies: the rel of links has other characters than a to z, digits, -, _ and spaces, or the attribute rel is allowed, too */
    DQ_REFUSED_CLASS = -56,     /* policies: a class is empty, or has a control, a space or a character that isn't ASCII */
    DQ_REFUSED_PREFIX = -57,    /* policies: the prefix of ids has other characters than a to z, digits, - and _ */
    DQ_REFUSED_DEPTH = -58      /* policies: more than 256 elements may be nested */
} dq_fault;

/* Kinds of nodes: the numbers of the DOM's nodeType. */
typedef enum dq_kind_number {
    DQ_ELEMENT = 1, DQ_TEXT = 3, DQ_PROCESSING_INSTRUCTION = 7, DQ_COMMENT = 8, DQ_DOCUMENT = 9, DQ_DOCTYPE = 10, DQ_FRAGMENT = 11
} dq_kind_number;

/* Where markup or a node goes, as seen from a node. */
typedef enum dq_place {
    DQ_AS_CONTENTS = 0, /* in the place of its children; not for dq_move */
    DQ_AT_END = 1,      /* after its children */
    DQ_AT_FRONT = 2,    /* in front of its children */
    DQ_BEFORE = 3,      /* right before it */
    DQ_AFTER = 4,       /* right after it */
    DQ_INSTEAD = 5      /* in its place; it is detached */
} dq_place;

/* Directions of dq_step. */
typedef enum dq_direction {
    DQ_PARENT = 0, DQ_FIRST_CHILD = 1, DQ_LAST_CHILD = 2, DQ_NEXT = 3, DQ_PREVIOUS = 4,
    DQ_FIRST_ELEMENT = 5, DQ_NEXT_ELEMENT = 6, DQ_PREVIOUS_ELEMENT = 7
} dq_direction;

/* Axes of dq_list. */
typedef enum dq_axis {
    DQ_CHILDREN = 0,   /* the children, in order */
    DQ_ANCESTORS = 1,  /* the ancestors, from the parent on */
    DQ_DESCENDANTS = 2 /* all nodes below the node, in document order */
} dq_axis;

/* What says in which encoding a page is: dq_encoding_source. */
typedef enum dq_source {
    DQ_BY_MARK = 0,      /* a byte order mark */
    DQ_BY_TRANSPORT = 1, /* the label that was given to dq_parse_bytes */
    DQ_BY_PAGE = 2,      /* a meta element or an XML declaration near its start */
    DQ_BY_GUESS = 3      /* nothing: it is UTF-8 where all bytes are UTF-8, and windows-1252 where not */
} dq_source;

/* What a page says of its article: the items of the fields of dq_article. */
typedef enum dq_article_field {
    DQ_TITLE = 0,
    DQ_BYLINE = 1,      /* the author */
    DQ_PUBLISHED = 2,   /* the date, as it is written */
    DQ_LANGUAGE = 3,    /* as it is written, such as en-GB */
    DQ_SITE = 4,        /* the name of the site */
    DQ_DESCRIPTION = 5,
    DQ_IMAGE = 6        /* the address of an image, as it is written */
} dq_article_field;

/* Rules of a policy that have a text: dq_policy_rule. From 7 on they take back what others have said. */
typedef enum dq_rule {
    DQ_ALLOW_ELEMENT = 0,   /* elements of that name stay; any other is replaced by its children */
    DQ_DROP_ELEMENT = 1,    /* elements of that name vanish with everything in them, even if they are allowed, too */
    DQ_ALLOW_ATTRIBUTE = 2, /* every element may have that attribute */
    DQ_ALLOW_SCHEME = 3,    /* addresses may have that scheme, which is given in lower case */
    DQ_ALLOW_CLASS = 4,     /* that class stays where the attribute class does; as soon as one is allowed, others vanish */
    DQ_LINK_REL = 5,        /* each a and area gets that rel, as "noopener noreferrer" */
    DQ_ID_PREFIX = 6,       /* each id gets that in front, unless it begins with it */
    DQ_DISALLOW_ELEMENT = 7,   /* takes back DQ_ALLOW_ELEMENT: elements of that name are replaced by their children */
    DQ_UNDROP_ELEMENT = 8,     /* takes back DQ_DROP_ELEMENT */
    DQ_DISALLOW_ATTRIBUTE = 9, /* takes back DQ_ALLOW_ATTRIBUTE; what single elements may have stays */
    DQ_DISALLOW_SCHEME = 10,   /* takes back DQ_ALLOW_SCHEME */
    DQ_DISALLOW_CLASS = 11     /* takes back DQ_ALLOW_CLASS; after the last one no class stays */
} dq_rule;

/* Purposes that have rules of their own: dq_policy_preset. */
typedef enum dq_preset {
    DQ_FOR_TEXT = 0,    /* only texts stay, as by dq_policy_empty */
    DQ_FOR_INLINE = 1,  /* a place that holds phrases alone: emphasised, marked, quoted and linked words */
    DQ_FOR_COMMENT = 2, /* comments of strangers: paragraphs, lists, quotes, code, links to other sites with rel="nofollow noopener noreferrer" */
    DQ_FOR_ARTICLE = 3, /* articles: texts, tables, images, links and sections, without attributes that only say how they look */
    DQ_FOR_EMAIL = 4,   /* mails: also tables and fonts with the old attributes of layout; images show their text, and aren't loaded */
    DQ_FOR_COMMON = 5   /* all of these, as by dq_policy_common */
} dq_preset;

/* Rules of a policy that have a number: dq_policy_set. */
typedef enum dq_setting {
    DQ_DEPTH = 0,           /* so many elements that stay may be nested, 256 at most; deeper ones are replaced by their children */
    DQ_DATA_ATTRIBUTES = 1, /* not 0: every element may have attributes whose names begin with data- */
    DQ_KEEP_RELATIVE = 2,   /* not 0: addresses without a scheme stay as they are; 0: they vanish */
    DQ_NO_LINK_REL = 3      /* links get no rel; the number does not matter */
} dq_setting;

/* ---- Reading. Each call puts the new document in the place of what the handle held, which is freed,
 * and returns 0. After a fault the handle holds what it held before. */

/* Reads a page as browsers do: every text is a page, faults and all. Bytes that aren't UTF-8 become
 * U+FFFD, and a byte order mark is dropped. Elements nest max_depth deep at most (3 or more; browsers
 * take 512); 0 is no limit. Faults: DQ_MEMORY, DQ_TOO_MANY_NODES. */
DQ_API int64_t dq_parse_page(dq_document *document, const char *html, size_t html_length, size_t max_depth);

/* Reads a page in any encoding, as browsers do. Its encoding is that of a byte order mark; or else that of
 * the label, which came with the page, as in the header Content-Type: text/html; charset=koi8-r; or else the
 * one that the page declares near its start; or else UTF-8 where all bytes are UTF-8, and windows-1252
 * where not. A label of length 0 says nothing. White space around a label and the case of its letters don't
 * matter. Elements nest max_depth deep at most, as for dq_parse_page. Faults: DQ_UNKNOWN_LABEL, DQ_MEMORY,
 * DQ_TOO_MANY_NODES. */
DQ_API int64_t dq_parse_bytes(dq_document *document, const void *bytes, size_t bytes_length, const char *label, size_t label_length, size_t max_depth);

/* Reads explicit markup: each element has its tags, nothing is guessed. Faults: DQ_NOT_UTF8; DQ_BAD_TAG
 * to DQ_INSTRUCTION, where fault_byte, unless it is null, becomes the byte of the text that is wrong; DQ_MEMORY,
 * DQ_TOO_MANY_NODES. */
DQ_API int64_t dq_parse(dq_document *document, const char *html, size_t html_length, size_t *fault_byte);

/* Reads a fragment as browsers do inside an HTML element of that name ("body", "td"): below the root
 * stands an element html, and in it the nodes. Faults: DQ_NOT_UTF8, DQ_MEMORY, DQ_TOO_MANY_NODES. */
DQ_API int64_t dq_parse_fragment(dq_document *document, const char *html, size_t html_length, const char *context, size_t context_length);

/* Frees what the handle holds. The handle is then without a document and may be used again. Null is allowed. */
DQ_API void dq_document_free(dq_document *document);

/* ---- Reading in pieces: a page whose bytes come one piece after the other, from a file or a connection. It may be
 * cut anywhere, also inside a character. */

/* Begins to read a page, in the place of what the handle held: 0. The label and the depth are those of dq_parse_bytes.
 * Where nothing says the encoding, the first 1,024 bytes decide. Faults: DQ_UNKNOWN_LABEL, DQ_MEMORY. */
DQ_API int64_t dq_reader_begin(dq_reader *reader, const char *label, size_t label_length, size_t max_depth);

/* Reads the next bytes: 0. After a fault each later call has the same one. Faults: DQ_MEMORY, DQ_TOO_MANY_NODES. */
DQ_API int64_t dq_reader_feed(dq_reader *reader, const void *bytes, size_t bytes_length);

/* Puts the page, all of whose bytes have come, into the handle of a document, in the place of what that held: 0. The
 * reader is then without a page. After a fault the document is what it was. Faults: DQ_MEMORY, DQ_TOO_MANY_NODES. */
DQ_API int64_t dq_reader_end(dq_reader *reader, dq_document *document);

/* Frees what the handle holds. Null is allowed. */
DQ_API void dq_reader_free(dq_reader *reader);

/* ---- Finding nodes. Selectors are those of CSS, with commas between them. Faults of each: DQ_NO_NODE,
 * DQ_NOT_UTF8, DQ_SELECTOR to DQ_SELECTOR_TOO_DEEP, DQ_MEMORY. */

/* The elements below the node that match one of the selectors, in document order: their count. */
DQ_API int64_t dq_select(dq_document *document, uint32_t root, const char *selectors, size_t selectors_length, dq_nodes *nodes);

/* The first of them: its number, or DQ_NOTHING. */
DQ_API int64_t dq_select_first(dq_document *document, uint32_t root, const char *selectors, size_t selectors_length);

/* Whether the node is an element that matches one of the selectors: 1 or 0. */
DQ_API int64_t dq_matches(dq_document *document, uint32_t node, const char *selectors, size_t selectors_length);

/* The node in a direction: its number, or DQ_NOTHING. Faults: DQ_NO_NODE, DQ_ARGUMENT. */
DQ_API int64_t dq_step(dq_document *document, uint32_t node, dq_direction direction);

/* The nodes along an axis: their count. Faults: DQ_NO_NODE, DQ_ARGUMENT, DQ_MEMORY. */
DQ_API int64_t dq_list(dq_document *document, uint32_t node, dq_axis axis, dq_nodes *nodes);

/* The fragment that holds the contents of a template: its number, or DQ_NOTHING. Fault: DQ_NO_NODE. */
DQ_API int64_t dq_template_contents(dq_document *document, uint32_t node);

/* ---- Reading nodes. Each function puts a text into the string, and returns its length in bytes. Faults of each:
 * DQ_NO_NODE, DQ_MEMORY. */

/* The texts at the node and below it, joined. */
DQ_API int64_t dq_text(dq_document *document, uint32_t node, dq_string *text);

/* The node's HTML. */
DQ_API int64_t dq_html(dq_document *document, uint32_t node, dq_string *html);

/* The HTML of the node's children; of a template, that of its contents. */
DQ_API int64_t dq_inner_html(dq_document *document, uint32_t node, dq_string *html);

/* The node as CommonMark with GitHub's tables, which readers show as the page. */
DQ_API int64_t dq_markdown(dq_document *document, uint32_t node, dq_string *markdown);

/* What is below the node as Markdown, as the Rust crate dom_query writes it. */
DQ_API int64_t dq_md(dq_document *document, uint32_t node, dq_string *markdown);

/* What is below the node as text, with blocks on lines of their own. */
DQ_API int64_t dq_formatted_text(dq_document *document, uint32_t node, dq_string *text);

/* The local name of an element ("p"); DQ_NOTHING for any other node. */
DQ_API int64_t dq_name(dq_document *document, uint32_t node, dq_string *name);

/* The value of the first attribute of that local name, or DQ_NOTHING. Also DQ_NOT_UTF8. */
DQ_API int64_t dq_attr(dq_document *document, uint32_t node, const char *name, size_t name_length, dq_string *value);

/* The kind of the node (dq_kind_number). Fault: DQ_NO_NODE. */
DQ_API int64_t dq_kind(dq_document *document, uint32_t node);

/* ---- How the bytes of a page were read. Each function answers DQ_NOTHING for a document that neither
 * dq_parse_bytes nor dq_reader_end read. */

/* The name of the encoding that the page was in, as "UTF-8" or "windows-1252": its length. */
DQ_API int64_t dq_encoding(dq_document *document, dq_string *name);

/* What says that the page is in that encoding (dq_source). */
DQ_API int64_t dq_encoding_source(dq_document *document);

/* How many characters U+FFFD stand in the text of the page for bytes that aren't in that encoding. */
DQ_API int64_t dq_replaced_count(dq_document *document);

/* ---- Several texts at once. Each function puts texts into the strings, and returns their count. */

/* The attributes of an element: a local name and its value by turns. Faults: DQ_NO_NODE, DQ_MEMORY. */
DQ_API int64_t dq_attrs(dq_document *document, uint32_t node, dq_strings *names_and_values);

/* The words of the attribute class. Faults: DQ_NO_NODE, DQ_MEMORY. */
DQ_API int64_t dq_classes(dq_document *document, uint32_t node, dq_strings *classes);

/* The text of each element that dq_select would find. Faults as there. */
DQ_API int64_t dq_select_texts(dq_document *document, uint32_t root, const char *selectors, size_t selectors_length, dq_strings *texts);

/* The HTML of each element that dq_select would find. Faults as there. */
DQ_API int64_t dq_select_html(dq_document *document, uint32_t root, const char *selectors, size_t selectors_length, dq_strings *html);

/* The value of an attribute of each element that dq_select would find; for an element without it, no text. Faults as there. */
DQ_API int64_t dq_select_attrs(dq_document *document, uint32_t root, const char *selectors, size_t selectors_length, const char *name, size_t name_length, dq_strings *values);

/* ---- Articles. */

/* The article of a page: what a reader came for, without navigation, advertisements and comments. A document of its
 * nodes goes into the handle `article`, in the place of what that held: dq_html, dq_markdown and dq_formatted_text of its node 0
 * are the article as HTML, Markdown and text. The seven items of `fields` are what the page says of it (dq_article_field), null
 * for what it does not say. Returns 1 if the page surely has an article, and 0 if it may be none, as a home page; DQ_NOTHING
 * where no text of the page is shown. The page stays as it is; `article` may be the same handle. After a fault it holds what it
 * held. Faults: DQ_MEMORY, DQ_TOO_MANY_NODES. */
DQ_API int64_t dq_article(dq_document *page, dq_document *article, dq_strings *fields);

/* ---- Editing. Each function returns 0, and dq_new_element and dq_new_text the number of the new node.
 * Faults of each: DQ_NO_NODE, DQ_NOT_UTF8, DQ_MEMORY, and those that are named. DQ_BAD_KIND is for nodes that aren't
 * elements. A name is refused as DQ_BAD_NAME
 * if it would be read again as something else: the name of an element begins with a letter from A to z, and no name has
 * white space, U+0000, / or >, that of an attribute no = either. Texts are escaped where they are written, but not in
 * script, style, xmp, iframe, noembed, noframes and plaintext: there a text that has the end tag ends the element, and in
 * a script <!-- can hide it. docs/C.md says which calls to guard. */

/* Gives the element's first attribute of that local name the value, or adds one. DQ_BAD_KIND, DQ_BAD_NAME. */
DQ_API int64_t dq_set_attr(dq_document *document, uint32_t node, const char *name, size_t name_length, const char *value, size_t value_length);

/* Removes every attribute of that local name. DQ_BAD_KIND. */
DQ_API int64_t dq_remove_attr(dq_document *document, uint32_t node, const char *name, size_t name_length);

/* Changes the local name of an element. DQ_BAD_KIND, DQ_BAD_NAME. */
DQ_API int64_t dq_set_name(dq_document *document, uint32_t node, const char *name, size_t name_length);

/* Puts one text in the place of an element's children, or of a text's contents. DQ_BAD_KIND for other nodes,
 * DQ_TOO_MANY_NODES. */
DQ_API int64_t dq_set_text(dq_document *document, uint32_t node, const char *text, size_t text_length);

/* Reads explicit markup and puts it at a place at the node; at the contents of a template, where the place is among its
 * children. DQ_ARGUMENT; DQ_BAD_TAG to DQ_INSTRUCTION, where fault_byte, unless it is null, becomes the byte that is
 * wrong; DQ_NO_CHILDREN_HERE, DQ_ROOT_OR_FRAGMENT, DQ_TOO_MANY_NODES. */
DQ_API int64_t dq_put_html(dq_document *document, uint32_t node, dq_place place, const char *html, size_t html_length, size_t *fault_byte);

/* Makes an HTML element without attributes. It stands nowhere until dq_move puts it somewhere. DQ_BAD_NAME, DQ_TOO_MANY_NODES. */
DQ_API int64_t dq_new_element(dq_document *document, const char *name, size_t name_length);

/* Makes a text. It stands nowhere until dq_move puts it somewhere. DQ_TOO_MANY_NODES. */
DQ_API int64_t dq_new_text(dq_document *document, const char *text, size_t text_length);

/* Moves the node, with what is below it, to a place at the target: DQ_AT_END, DQ_AT_FRONT, DQ_BEFORE,
 * DQ_AFTER or DQ_INSTEAD. DQ_ARGUMENT, DQ_NO_CHILDREN_HERE, DQ_ROOT_OR_FRAGMENT, DQ_CYCLE. */
DQ_API int64_t dq_move(dq_document *document, uint32_t node, dq_place place, uint32_t target);

/* Detaches the node, with what is below it. It stays a node of the document, and may be put back. */
DQ_API int64_t dq_remove(dq_document *document, uint32_t node);

/* Puts the children of the node in its place, and detaches it. DQ_ROOT_OR_FRAGMENT. */
DQ_API int64_t dq_unwrap(dq_document *document, uint32_t node);

/* Joins neighbouring texts below the node. */
DQ_API int64_t dq_normalize(dq_document *document, uint32_t node);

/* Keeps the elements and the attributes of these names, given with spaces between them. Any other
 * element is replaced by its children, or dropped with all that is below it if its name is one of
 * `dropped`. Comments and doctypes are dropped. */
DQ_API int64_t dq_sanitize(dq_document *document, const char *elements, size_t elements_length, const char *attributes, size_t attributes_length, const char *dropped, size_t dropped_length);

/* ---- Policies. A policy is begun, given its rules, and finished; then it cleans any number of texts.
 * Each function returns 0, or a fault: DQ_MEMORY, and those that are named. */

/* Begins a policy by which only texts stay, those of scripts and styles too; 128 elements may be nested.
 * What the handle held is freed. After a fault the handle holds what it held before. */
DQ_API int64_t dq_policy_empty(dq_policy *policy);

/* Begins a policy with rules for comments, mails and articles: phrases, headings, lists, tables, images and
 * links stay, script and style vanish with their contents, links get rel="noopener noreferrer", relative
 * addresses stay, and 256 elements may be nested. What the handle held is freed. After a fault the handle
 * holds what it held before. */
DQ_API int64_t dq_policy_common(dq_policy *policy);

/* Begins a policy with the rules for a purpose. What the handle held is freed. After a fault the handle
 * holds what it held before. Faults: DQ_ARGUMENT for a number that is none of dq_preset, DQ_MEMORY. */
DQ_API int64_t dq_policy_preset(dq_policy *policy, dq_preset preset);

/* The next functions change the rules and finish them. After a fault of one of them the policy is refused
 * for good: each later call, dq_policy_finish and those that clean too, answers the first fault. So of all
 * these answers only the one of dq_policy_finish has to be looked at. Faults of each: DQ_CLOSED,
 * DQ_NOT_UTF8, DQ_FINISHED. Names are those of the lists in lower case: a rule for NAV says nothing of nav. */

/* Gives the policy a rule that has a text. DQ_ARGUMENT. */
DQ_API int64_t dq_policy_rule(dq_policy *policy, dq_rule rule, const char *text, size_t text_length);

/* Lets elements of that name have that attribute. */
DQ_API int64_t dq_policy_attribute_of(dq_policy *policy, const char *element, size_t element_length, const char *name, size_t name_length);

/* Takes back what dq_policy_attribute_of and dq_policy_value have said of that attribute of elements of that name. */
DQ_API int64_t dq_policy_disallow_attribute_of(dq_policy *policy, const char *element, size_t element_length, const char *name, size_t name_length);

/* Lets elements of that name have that attribute with that value. */
DQ_API int64_t dq_policy_value(dq_policy *policy, const char *element, size_t element_length, const char *name, size_t name_length, const char *value, size_t value_length);

/* Has addresses without a scheme joined to that base, an absolute URL. DQ_BAD_BASE. */
DQ_API int64_t dq_policy_base(dq_policy *policy, const char *url, size_t url_length);

/* Gives the policy a rule that has a number. DQ_ARGUMENT. */
DQ_API int64_t dq_policy_set(dq_policy *policy, dq_setting setting, size_t number);

/* Makes a policy of the rules. They are refused if what it left would not be safe: DQ_REFUSED_ELEMENT to
 * DQ_REFUSED_DEPTH. The string `why`, unless it is null, then says which name is refused. */
DQ_API int64_t dq_policy_finish(dq_policy *policy, dq_string *why);

/* Frees what the handle holds. The handle is then without a policy and may be used again. Null is allowed. */
DQ_API void dq_policy_free(dq_policy *policy);

/* ---- Cleaning. Each function puts a text into the string, and returns its length in bytes. Faults of each: DQ_CLOSED,
 * DQ_UNFINISHED, the fault for which the policy was refused, DQ_NOT_UTF8, DQ_TOO_MANY_NODES, DQ_MEMORY. The policy stays
 * as it was, and threads may share it. */

/* What the policy leaves of a fragment, such as a comment or a mail, which is read as the contents of a div.
 * Whatever the fragment is, only elements, attributes and addresses that the policy allows are left, and a
 * page with the text in its body is read as exactly the tree that is left. */
DQ_API int64_t dq_clean(dq_policy *policy, const char *html, size_t html_length, dq_string *cleaned);

/* A page with what the policy leaves of the body of a page: <!DOCTYPE html>, a head that declares UTF-8, and that body. */
DQ_API int64_t dq_clean_page(dq_policy *policy, const char *html, size_t html_length, dq_string *cleaned);

/* What the policy leaves of the children of a document's root. The document stays as it is. */
DQ_API int64_t dq_clean_document(dq_policy *policy, dq_document *document, dq_string *cleaned);

/* ---- Faults, and the version. */

/* Writes what a fault means, in English, and a 0 after it, as far as there is room, and returns the whole length without
 * the 0; 0 for a number that is no fault. Nothing is written where the text is null or there is no room. */
DQ_API size_t dq_fault_text(int64_t fault, char *text, size_t room);

/* The version of the library, as DQ_VERSION has that of the header. The text is never freed. */
DQ_API const char *dq_version(void);

#ifdef __cplusplus
}
#endif
#endif
