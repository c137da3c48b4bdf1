/* Asks every function of dom_query.h, and says which answer is wrong. A call may answer DQ_MEMORY instead, if the program is
   told so by an argument: then memory is being refused, and the document must be as it was. Status 0: all answers are right. */
#include "dom_query.h"
#include <stdio.h>
#include <string.h>

static int wrong, refusing;
static dq_string text = DQ_STRING_INIT;
static dq_nodes nodes = DQ_NODES_INIT;
static dq_strings several = DQ_STRINGS_INIT;

#define T(s) (s), strlen(s)

static int is(int line, int64_t got, int64_t wanted) {
    if (got == wanted) return 1;
    if (refusing && got == DQ_MEMORY) return 0;
    printf("line %d: %lld and not %lld\n", line, (long long)got, (long long)wanted);
    wrong = 1;
    return 0;
}

/* The answer is a number, and the text is this one. */
static int says(int line, int64_t got, const char *wanted) {
    if (!is(line, got, (int64_t)strlen(wanted))) return 0;
    if (text.length == strlen(wanted) && strcmp(text.bytes, wanted) == 0) return 1;
    printf("line %d: %s and not %s\n", line, text.bytes, wanted);
    wrong = 1;
    return 0;
}

/* The answer is a count, and these are the texts, with | between them and - for one that isn't there. */
static void lists(int line, int64_t got, const char *wanted) {
    char joined[200] = "";
    size_t i, at = 0;
    if (refusing && got == DQ_MEMORY) return;
    for (i = 0; i < several.count; i++) {
        const dq_view *view = &several.items[i];
        int none = !view->bytes;
        if (none != (several.lengths.numbers[i] == DQ_NO_TEXT)) wrong = 1;
        at += (size_t)snprintf(joined + at, sizeof joined - at, "%s%.*s", i ? "|" : "", none ? 1 : (int)view->length, none ? "-" : view->bytes);
    }
    if (got == (int64_t)several.count && strcmp(joined, wanted) == 0) return;
    printf("line %d: %lld: %s and not %s\n", line, (long long)got, joined, wanted);
    wrong = 1;
}

/* The answer is a count, and these are the nodes. */
static void found(int line, int64_t got, const char *wanted) {
    char joined[200] = "";
    size_t i, at = 0;
    if (refusing && got == DQ_MEMORY) return;
    for (i = 0; i < nodes.count; i++) at += (size_t)snprintf(joined + at, sizeof joined - at, "%s%u", i ? " " : "", (unsigned)nodes.numbers[i]);
    if (got == (int64_t)nodes.count && strcmp(joined, wanted) == 0) return;
    printf("line %d: %lld: %s and not %s\n", line, (long long)got, joined, wanted);
    wrong = 1;
}

#define IS(got, wanted) is(__LINE__, got, wanted)
#define SAYS(got, wanted) says(__LINE__, got, wanted)
#define LISTS(got, wanted) lists(__LINE__, got, wanted)
#define FOUND(got, wanted) found(__LINE__, got, wanted)

static const char *SMALL = "<div><p class=\"x y\">Tea <b>hot</b></p><p>Milk</p></div>";

static void closed(dq_document *d) {
    IS(dq_select(d, 0, T("p"), &nodes), DQ_CLOSED);
    IS(dq_select_first(d, 0, T("p")), DQ_CLOSED);
    IS(dq_matches(d, 0, T("p")), DQ_CLOSED);
    IS(dq_step(d, 0, DQ_PARENT), DQ_CLOSED);
    IS(dq_list(d, 0, DQ_CHILDREN, &nodes), DQ_CLOSED);
    IS(dq_text(d, 0, &text), DQ_CLOSED);
    IS(dq_html(d, 0, &text), DQ_CLOSED);
    IS(dq_inner_html(d, 0, &text), DQ_CLOSED);
    IS(dq_markdown(d, 0, &text), DQ_CLOSED);
    IS(dq_md(d, 0, &text), DQ_CLOSED);
    IS(dq_formatted_text(d, 0, &text), DQ_CLOSED);
    IS(dq_name(d, 0, &text), DQ_CLOSED);
    IS(dq_attr(d, 0, T("id"), &text), DQ_CLOSED);
    IS(dq_kind(d, 0), DQ_CLOSED);
    IS(dq_attrs(d, 0, &several), DQ_CLOSED);
    IS(dq_classes(d, 0, &several), DQ_CLOSED);
    IS(dq_select_texts(d, 0, T("p"), &several), DQ_CLOSED);
    IS(dq_select_html(d, 0, T("p"), &several), DQ_CLOSED);
    IS(dq_select_attrs(d, 0, T("p"), T("id"), &several), DQ_CLOSED);
    IS(dq_set_attr(d, 0, T("id"), T("x")), DQ_CLOSED);
    IS(dq_remove_attr(d, 0, T("id")), DQ_CLOSED);
    IS(dq_set_name(d, 0, T("p")), DQ_CLOSED);
    IS(dq_set_text(d, 0, T("x")), DQ_CLOSED);
    IS(dq_put_html(d, 0, DQ_AT_END, T("x"), NULL), DQ_CLOSED);
    IS(dq_new_element(d, T("p")), DQ_CLOSED);
    IS(dq_new_text(d, T("p")), DQ_CLOSED);
    IS(dq_move(d, 1, DQ_AT_END, 0), DQ_CLOSED);
    IS(dq_remove(d, 0), DQ_CLOSED);
    IS(dq_unwrap(d, 0), DQ_CLOSED);
    IS(dq_normalize(d, 0), DQ_CLOSED);
    IS(dq_sanitize(d, T("p"), T(""), T("")), DQ_CLOSED);
    IS(dq_encoding(d, &text), DQ_CLOSED);
    IS(dq_encoding_source(d), DQ_CLOSED);
    IS(dq_replaced_count(d), DQ_CLOSED);
    IS(dq_article(d, d, &several), DQ_CLOSED);
    dq_document_free(d);
}

static void no_policy(dq_policy *p, dq_document *d) {
    IS(dq_policy_rule(p, DQ_ALLOW_ELEMENT, T("p")), DQ_CLOSED);
    IS(dq_policy_attribute_of(p, T("p"), T("id")), DQ_CLOSED);
    IS(dq_policy_disallow_attribute_of(p, T("p"), T("id")), DQ_CLOSED);
    IS(dq_policy_value(p, T("p"), T("id"), T("x")), DQ_CLOSED);
    IS(dq_policy_base(p, T("https://a.example/")), DQ_CLOSED);
    IS(dq_policy_set(p, DQ_DEPTH, 1), DQ_CLOSED);
    IS(dq_policy_finish(p, &text), DQ_CLOSED);
    IS(dq_clean(p, T("<p>"), &text), DQ_CLOSED);
    IS(dq_clean_page(p, T("<p>"), &text), DQ_CLOSED);
    IS(dq_clean_document(p, d, &text), DQ_CLOSED);
    dq_policy_free(p);
}

/* Pages in other encodings: what says so, and what can't be decoded. */
static void decoding(dq_document *d) {
    static const char koi8[] = "<p>\xfe\xc1\xca", marked[] = "\xef\xbb\xbf<p>\xd0\xa7";
    static const char declared[] = "<meta charset=koi8-r><p>\xfe", wide[] = {'\xff', '\xfe', 'a', 0, 0x27, 4};
    IS(dq_encoding(d, &text), DQ_NOTHING);
    IS(dq_encoding_source(d), DQ_NOTHING);
    IS(dq_replaced_count(d), DQ_NOTHING);
    if (IS(dq_parse_bytes(d, koi8, sizeof koi8 - 1, T(" KOI8-R "), 512), 0)) {
        SAYS(dq_text(d, 0, &text), "\xd0\xa7\xd0\xb0\xd0\xb9");
        SAYS(dq_encoding(d, &text), "KOI8-R");
        IS(dq_encoding_source(d), DQ_BY_TRANSPORT);
        IS(dq_replaced_count(d), 0);
    }
    if (IS(dq_parse_bytes(d, koi8, sizeof koi8 - 1, T("utf-8"), 0), 0)) IS(dq_replaced_count(d), 3);
    if (IS(dq_parse_bytes(d, koi8, sizeof koi8 - 1, NULL, 0, 512), 0)) {
        SAYS(dq_encoding(d, &text), "windows-1252");
        IS(dq_encoding_source(d), DQ_BY_GUESS);
    }
    if (IS(dq_parse_bytes(d, declared, sizeof declared - 1, NULL, 0, 512), 0)) {
        SAYS(dq_encoding(d, &text), "KOI8-R");
        IS(dq_encoding_source(d), DQ_BY_PAGE);
    }
    if (IS(dq_parse_bytes(d, marked, sizeof marked - 1, T("koi8-r"), 512), 0)) {
        SAYS(dq_encoding(d, &text), "UTF-8");
        IS(dq_encoding_source(d), DQ_BY_MARK);
    }
    if (IS(dq_parse_bytes(d, wide, sizeof wide, NULL, 0, 512), 0)) SAYS(dq_text(d, 0, &text), "a\xd0\xa7");
    IS(dq_parse_bytes(d, koi8, sizeof koi8 - 1, T("koi9"), 512), DQ_UNKNOWN_LABEL);
    IS(dq_parse_bytes(d, koi8, sizeof koi8 - 1, koi8 + 3, 1, 512), DQ_UNKNOWN_LABEL);
    if (!refusing) SAYS(dq_text(d, 0, &text), "a\xd0\xa7");
}

/* Every rule, and what it leaves. */
static void cleaning(dq_policy *p, dq_document *d) {
    static const char *HTML = "<svg><b>x</b></svg><i data-a=1>y</i><a href=/z class='k l' id=i dir=rtl title=t onclick=x()>z</a><script>s()</script>";
    if (!IS(dq_policy_empty(p), 0)) return;
    IS(dq_clean(p, T(HTML), &text), DQ_UNFINISHED);
    IS(dq_policy_finish(p, &text), 0);
    SAYS(dq_clean(p, T("<b>1 &lt; 2</b><script>3</script>"), &text), "1 &lt; 2");
    if (!IS(dq_policy_empty(p), 0)) return;
    IS(dq_policy_rule(p, DQ_ALLOW_ELEMENT, T("a")), 0);
    IS(dq_policy_rule(p, DQ_ALLOW_ELEMENT, T("i")), 0);
    IS(dq_policy_rule(p, DQ_DROP_ELEMENT, T("script")), 0);
    IS(dq_policy_rule(p, DQ_ALLOW_ATTRIBUTE, T("id")), 0);
    IS(dq_policy_rule(p, DQ_ALLOW_ATTRIBUTE, T("class")), 0);
    IS(dq_policy_rule(p, DQ_ALLOW_SCHEME, T("https")), 0);
    IS(dq_policy_rule(p, DQ_ALLOW_CLASS, T("k")), 0);
    IS(dq_policy_rule(p, DQ_LINK_REL, T("nofollow")), 0);
    IS(dq_policy_rule(p, DQ_ID_PREFIX, T("u-")), 0);
    IS(dq_policy_attribute_of(p, T("a"), T("href")), 0);
    IS(dq_policy_value(p, T("a"), T("dir"), T("rtl")), 0);
    IS(dq_policy_base(p, T("https://t.example/s/")), 0);
    IS(dq_policy_set(p, DQ_DATA_ATTRIBUTES, 1), 0);
    IS(dq_policy_set(p, DQ_DEPTH, 9), 0);
    IS(dq_policy_finish(p, &text), 0);
    SAYS(dq_clean(p, T(HTML), &text),
         "x<i data-a=\"1\">y</i><a href=\"https://t.example/z\" class=\"k\" id=\"u-i\" dir=\"rtl\" rel=\"nofollow\">z</a>");
    SAYS(dq_clean(p, T("<a href=javascript:x()>1</a>"), &text), "<a rel=\"nofollow\">1</a>");
    SAYS(dq_clean_page(p, T("<title>t</title><i>1"), &text), 
         "<!DOCTYPE html><html><head><meta charset=\"utf-8\"></head><body><i>1</i></body></html>");
    if (IS(dq_parse(d, T("<i>1<b>2</b></i>"), NULL), 0)) {
        SAYS(dq_clean_document(p, d, &text), "<i>12</i>");
        SAYS(dq_html(d, 0, &text), "<i>1<b>2</b></i>");
    }
    if (IS(dq_policy_empty(p), 0)) {
        IS(dq_policy_rule(p, DQ_ALLOW_ELEMENT, T("a")), 0);
        IS(dq_policy_attribute_of(p, T("a"), T("href")), 0);
        IS(dq_policy_rule(p, DQ_LINK_REL, T("nofollow")), 0);
        IS(dq_policy_set(p, DQ_NO_LINK_REL, 0), 0);
        IS(dq_policy_set(p, DQ_KEEP_RELATIVE, 1), 0);
        IS(dq_policy_set(p, DQ_DEPTH, 1), 0);
        IS(dq_policy_finish(p, &text), 0);
        SAYS(dq_clean(p, T("<a href=/x>1</a>"), &text), "<a href=\"/x\">1</a>");
    }
    if (IS(dq_policy_common(p), 0)) {
        IS(dq_policy_set(p, DQ_KEEP_RELATIVE, 0), 0);
        IS(dq_policy_finish(p, &text), 0);
        SAYS(dq_clean(p, T("<h1>1</h1><script>2</script><img src=/x>"), &text), "<h1>1</h1><img>");
    }
    {
        static const char page[] = "<h1>1</h1><p>2 <a href=https://h/>3</a> <i>4</i><img src=/x><font size=1>5</font>";
        static const struct { dq_preset preset; const char *left; } wanted[] = {
            {DQ_FOR_TEXT, "12 3 45"},
            {DQ_FOR_INLINE, "12 <a href=\"https://h/\" rel=\"noopener noreferrer\">3</a> <i>4</i>5"},
            {DQ_FOR_COMMENT, "1<p>2 <a href=\"https://h/\" rel=\"nofollow noopener noreferrer\">3</a> <i>4</i>5</p>"},
            {DQ_FOR_ARTICLE, "<h1>1</h1><p>2 <a href=\"https://h/\" rel=\"noopener noreferrer\">3</a> <i>4</i><img src=\"/x\">5</p>"},
            {DQ_FOR_EMAIL, "<h1>1</h1><p>2 <a href=\"https://h/\" rel=\"noopener noreferrer\">3</a> <i>4</i><img><font size=\"1\">5</font></p>"},
            {DQ_FOR_COMMON, "<h1>1</h1><p>2 <a href=\"https://h/\" rel=\"noopener noreferrer\">3</a> <i>4</i><img src=\"/x\">5</p>"},
        };
        for (size_t i = 0; i < sizeof wanted / sizeof *wanted; i++) {
            if (IS(dq_policy_preset(p, wanted[i].preset), 0)) {
                IS(dq_policy_finish(p, &text), 0);
                SAYS(dq_clean(p, T(page), &text), wanted[i].left);
            }
        }
        IS(dq_policy_preset(p, (dq_preset)6), DQ_ARGUMENT);
    }
    if (IS(dq_policy_common(p), 0)) {
        IS(dq_policy_rule(p, DQ_DISALLOW_ELEMENT, T("img")), 0);
        IS(dq_policy_rule(p, DQ_DROP_ELEMENT, T("i")), 0);
        IS(dq_policy_rule(p, DQ_UNDROP_ELEMENT, T("i")), 0);
        IS(dq_policy_rule(p, DQ_DISALLOW_ATTRIBUTE, T("title")), 0);
        IS(dq_policy_rule(p, DQ_DISALLOW_SCHEME, T("ftp")), 0);
        IS(dq_policy_rule(p, DQ_ALLOW_ATTRIBUTE, T("class")), 0);
        IS(dq_policy_rule(p, DQ_ALLOW_CLASS, T("x")), 0);
        IS(dq_policy_rule(p, DQ_DISALLOW_CLASS, T("x")), 0);
        IS(dq_policy_disallow_attribute_of(p, T("a"), T("hreflang")), 0);
        IS(dq_policy_set(p, DQ_NO_LINK_REL, 0), 0);
        IS(dq_policy_finish(p, &text), 0);
        SAYS(dq_clean(p, T("<img src=/x><i title=t lang=l class=x>1</i><a href=ftp://h/ hreflang=h>2</a><a href=/y>3</a>"), &text),
             "<i lang=\"l\">1</i><a>2</a><a href=\"/y\">3</a>");
    }
}

/* A policy that is refused, and each rule that can't be given. Afterwards nothing is cleaned. */
static void refused(dq_policy *p, int line, int64_t given, int64_t wanted, const char *why) {
    is(line, given, wanted >= -49 ? wanted : 0);
    is(line, dq_policy_finish(p, &text), wanted);
    if (why && !refusing) says(line, (int64_t)text.length, why);
    is(line, dq_clean(p, T("<b>1</b>"), &text), wanted);
    is(line, dq_policy_rule(p, DQ_ALLOW_ELEMENT, T("b")), wanted);
    is(line, dq_policy_finish(p, &text), wanted);
}

#define REFUSED(given, wanted, why) \
    if (IS(dq_policy_common(p), 0)) refused(p, __LINE__, given, wanted, why)

static void unsound(dq_policy *p) {
    static const char bad[] = "\xff";
    REFUSED(dq_policy_rule(p, DQ_ALLOW_ELEMENT, T("svg")), DQ_REFUSED_ELEMENT, "element `svg` can't be kept safely");
    REFUSED(dq_policy_rule(p, DQ_ALLOW_ATTRIBUTE, T("onclick")), DQ_REFUSED_ATTRIBUTE, "attribute `onclick` can't be kept safely");
    REFUSED(dq_policy_attribute_of(p, T("a"), T("srcdoc")), DQ_REFUSED_ATTRIBUTE, "attribute `srcdoc` can't be kept safely");
    REFUSED(dq_policy_value(p, T("a"), T("style"), T("")), DQ_REFUSED_ATTRIBUTE, "attribute `style` can't be kept safely");
    REFUSED(dq_policy_rule(p, DQ_ALLOW_SCHEME, T("javascript")), DQ_REFUSED_SCHEME, "scheme `javascript` can't be kept safely");
    REFUSED(dq_policy_rule(p, DQ_ALLOW_CLASS, T("a b")), DQ_REFUSED_CLASS, "class `a b` can't be written");
    REFUSED(dq_policy_rule(p, DQ_LINK_REL, T("\"")), DQ_REFUSED_REL, "the `rel` of links can't be written");
    REFUSED(dq_policy_attribute_of(p, T("a"), T("rel")), DQ_REFUSED_REL, "links get a `rel`, but attribute `rel` is allowed, too");
    REFUSED(dq_policy_rule(p, DQ_DISALLOW_ELEMENT, T("td")), DQ_REFUSED_TABLE, "`table` is allowed without `td`");
    REFUSED(dq_policy_rule(p, DQ_ID_PREFIX, T(" ")), DQ_REFUSED_PREFIX, "the prefix of ids can't be written");
    REFUSED(dq_policy_base(p, T("gopher://a.example/")), DQ_REFUSED_BASE, "the scheme of the base isn't allowed");
    REFUSED(dq_policy_set(p, DQ_DEPTH, 257), DQ_REFUSED_DEPTH, "the depth is above 256");
    REFUSED(dq_policy_set(p, DQ_DEPTH, SIZE_MAX), DQ_REFUSED_DEPTH, "the depth is above 256");
    if (IS(dq_policy_empty(p), 0))
        refused(p, __LINE__, dq_policy_rule(p, DQ_ALLOW_ELEMENT, T("table")), DQ_REFUSED_TABLE, "`table` is allowed without `tbody`");
    REFUSED(dq_policy_base(p, T("/shop/")), DQ_BAD_BASE, NULL);
    REFUSED(dq_policy_base(p, bad, 1), DQ_NOT_UTF8, NULL);
    REFUSED(dq_policy_rule(p, DQ_ALLOW_ELEMENT, bad, 1), DQ_NOT_UTF8, NULL);
    REFUSED(dq_policy_attribute_of(p, bad, 1, T("id")), DQ_NOT_UTF8, NULL);
    REFUSED(dq_policy_attribute_of(p, T("p"), bad, 1), DQ_NOT_UTF8, NULL);
    REFUSED(dq_policy_value(p, T("p"), T("id"), bad, 1), DQ_NOT_UTF8, NULL);
    REFUSED(dq_policy_rule(p, (dq_rule)12, T("b")), DQ_ARGUMENT, NULL);
    REFUSED(dq_policy_rule(p, DQ_DISALLOW_CLASS, bad, 1), DQ_NOT_UTF8, NULL);
    REFUSED(dq_policy_disallow_attribute_of(p, bad, 1, T("id")), DQ_NOT_UTF8, NULL);
    REFUSED(dq_policy_disallow_attribute_of(p, T("p"), bad, 1), DQ_NOT_UTF8, NULL);
    REFUSED(dq_policy_set(p, (dq_setting)4, 0), DQ_ARGUMENT, NULL);
    if (IS(dq_policy_common(p), 0) && IS(dq_policy_finish(p, &text), 0)) {
        IS(dq_clean(p, bad, 1, &text), DQ_NOT_UTF8);
        IS(dq_clean_page(p, bad, 1, &text), DQ_NOT_UTF8);
        SAYS(dq_clean(p, "a\0<b>\0", 6, &text), "a<b></b>");
        refused(p, __LINE__, dq_policy_set(p, DQ_DEPTH, 1), DQ_FINISHED, NULL);
    }
}

static void reading(dq_document *d) {
    FOUND(dq_select(d, 0, T("p"), &nodes), "2 6");
    FOUND(dq_select(d, 0, T("p, b"), &nodes), "2 4 6");
    FOUND(dq_select(d, 0, T("i"), &nodes), "");
    IS(dq_select_first(d, 1, T("b, i")), 4);
    IS(dq_select_first(d, 1, T("i")), DQ_NOTHING);
    IS(dq_matches(d, 4, T("p > b")), 1);
    IS(dq_matches(d, 3, T("*")), 0);
    IS(dq_step(d, 4, DQ_PARENT), 2);
    IS(dq_step(d, 2, DQ_FIRST_CHILD), 3);
    IS(dq_step(d, 2, DQ_LAST_CHILD), 4);
    IS(dq_step(d, 3, DQ_NEXT), 4);
    IS(dq_step(d, 4, DQ_PREVIOUS), 3);
    IS(dq_step(d, 2, DQ_FIRST_ELEMENT), 4);
    IS(dq_step(d, 2, DQ_NEXT_ELEMENT), 6);
    IS(dq_step(d, 6, DQ_PREVIOUS_ELEMENT), 2);
    IS(dq_step(d, 0, DQ_PARENT), DQ_NOTHING);
    IS(dq_step(d, 0, (dq_direction)8), DQ_ARGUMENT);
    FOUND(dq_list(d, 0, DQ_DESCENDANTS, &nodes), "1 2 3 4 5 6 7");
    FOUND(dq_list(d, 2, DQ_CHILDREN, &nodes), "3 4");
    FOUND(dq_list(d, 5, DQ_ANCESTORS, &nodes), "4 2 1 0");
    IS(dq_list(d, 5, (dq_axis)3, &nodes), DQ_ARGUMENT);
    if (!refusing) IS((int64_t)nodes.count, 0);
    IS(dq_template_contents(d, 2), DQ_NOTHING);
    SAYS(dq_text(d, 2, &text), "Tea hot");
    SAYS(dq_html(d, 4, &text), "<b>hot</b>");
    SAYS(dq_inner_html(d, 2, &text), "Tea <b>hot</b>");
    SAYS(dq_markdown(d, 2, &text), "Tea **hot**");
    SAYS(dq_markdown(d, 4, &text), "**hot**");
    SAYS(dq_md(d, 2, &text), "Tea **hot**");
    SAYS(dq_md(d, 4, &text), "hot");
    SAYS(dq_formatted_text(d, 1, &text), "Tea hot\n\nMilk");
    SAYS(dq_name(d, 4, &text), "b");
    IS(dq_name(d, 3, &text), DQ_NOTHING);
    SAYS(dq_attr(d, 2, T("class"), &text), "x y");
    IS(dq_attr(d, 2, T("id"), &text), DQ_NOTHING);
    IS(dq_kind(d, 0), DQ_DOCUMENT);
    IS(dq_kind(d, 2), DQ_ELEMENT);
    IS(dq_kind(d, 3), DQ_TEXT);
    LISTS(dq_attrs(d, 2, &several), "class|x y");
    LISTS(dq_attrs(d, 3, &several), "");
    LISTS(dq_classes(d, 2, &several), "x|y");
    LISTS(dq_select_texts(d, 0, T("p"), &several), "Tea hot|Milk");
    LISTS(dq_select_html(d, 0, T("b"), &several), "<b>hot</b>");
    LISTS(dq_select_attrs(d, 0, T("p"), T("class"), &several), "x y|-");
}

static void editing(dq_document *d) {
    int64_t made, content;
    IS(dq_set_attr(d, 4, T("id"), T("k")), 0);
    IS(dq_remove_attr(d, 2, T("class")), 0);
    IS(dq_set_name(d, 4, T("i")), 0);
    IS(dq_set_text(d, 4, T("cold")), 0);
    IS(dq_put_html(d, 6, DQ_INSTEAD, T("<hr>"), NULL), 0);
    made = dq_new_element(d, T("u"));
    content = dq_new_text(d, T("!"));
    if (made >= 0 && content >= 0) {
        IS(dq_move(d, (uint32_t)content, DQ_AT_END, (uint32_t)made), 0);
        if (IS(dq_move(d, (uint32_t)made, DQ_AT_END, 2), 0)) IS(dq_move(d, 2, DQ_AT_END, (uint32_t)made), DQ_CYCLE);
    }
    IS(dq_normalize(d, 0), 0);
    if (!refusing) SAYS(dq_html(d, 1, &text), "<div><p>Tea <i id=\"k\">cold</i><u>!</u></p><hr></div>");
    if (made >= 0) IS(dq_unwrap(d, (uint32_t)made), 0);
    IS(dq_remove(d, 4), 0);
    IS(dq_put_html(d, 2, DQ_AS_CONTENTS, T("Mate"), NULL), 0);
    IS(dq_put_html(d, 2, DQ_AT_FRONT, T("<b>1</b>"), NULL), 0);
    IS(dq_put_html(d, 2, DQ_AT_END, T("<b>2</b>"), NULL), 0);
    IS(dq_put_html(d, 2, DQ_BEFORE, T("<b>0</b>"), NULL), 0);
    IS(dq_put_html(d, 2, DQ_AFTER, T("<b>3</b>"), NULL), 0);
    if (!refusing) SAYS(dq_inner_html(d, 1, &text), "<b>0</b><p><b>1</b>Mate<b>2</b></p><b>3</b><hr>");
    IS(dq_sanitize(d, T("div p"), T(""), T("b")), 0);
    if (!refusing) SAYS(dq_html(d, 1, &text), "<div><p>Mate</p></div>");
}

static void misuse(dq_document *d) {
    static const char bad[] = "\xff";
    IS(dq_text(d, 1000, &text), DQ_NO_NODE);
    IS(dq_remove(d, UINT32_MAX), DQ_NO_NODE);
    IS(dq_move(d, 1, DQ_AT_END, 1000), DQ_NO_NODE);
    IS(dq_set_text(d, 1, bad, 1), DQ_NOT_UTF8);
    IS(dq_select_first(d, 0, bad, 1), DQ_NOT_UTF8);
    IS(dq_attr(d, 1, bad, 1, &text), DQ_NOT_UTF8);
    IS(dq_parse(d, bad, 1, NULL), DQ_NOT_UTF8);
    IS(dq_parse_fragment(d, bad, 1, T("p")), DQ_NOT_UTF8);
    IS(dq_select_first(d, 0, NULL, 0), DQ_SELECTOR);
    IS(dq_select_first(d, 0, T(":nope")), DQ_UNKNOWN_PSEUDO_CLASS);
    IS(dq_put_html(d, 1, (dq_place)6, T("x"), NULL), DQ_ARGUMENT);
    IS(dq_move(d, 1, DQ_AS_CONTENTS, 0), DQ_ARGUMENT);
    size_t at = 9;
    if (IS(dq_put_html(d, 1, DQ_AT_END, T("<b></i>"), &at), DQ_MISMATCHED_END)) IS((int64_t)at, 3);
    IS(dq_set_attr(d, 1, T("a b"), T("")), DQ_BAD_NAME);
    IS(dq_set_attr(d, 1, T(""), T("")), DQ_BAD_NAME);
    IS(dq_set_attr(d, 1, T("a=b"), T("")), DQ_BAD_NAME);
    IS(dq_set_attr(d, 1, "a\0b", 3, T("")), DQ_BAD_NAME);
    IS(dq_set_name(d, 1, T("p><img")), DQ_BAD_NAME);
    IS(dq_set_name(d, 1, T("1p")), DQ_BAD_NAME);
    IS(dq_new_element(d, T("p x=y")), DQ_BAD_NAME);
    IS(dq_new_element(d, T("")), DQ_BAD_NAME);
    IS(dq_set_attr(d, 0, T("id"), T("x")), DQ_BAD_KIND);
    IS(dq_remove_attr(d, 0, T("id")), DQ_BAD_KIND);
    IS(dq_set_name(d, 0, T("p")), DQ_BAD_KIND);
    IS(dq_set_text(d, 0, T("x")), DQ_BAD_KIND);
    IS(dq_remove(d, 0), 0);
    IS(dq_put_html(d, 0, DQ_BEFORE, T("<b></b>"), NULL), DQ_ROOT_OR_FRAGMENT);
    if (IS(dq_parse(d, T("<p>"), &at), DQ_UNCLOSED)) IS((int64_t)at, 3);
    if (IS(dq_text(d, 1000, &text), DQ_NO_NODE)) IS(text.length == 0 && text.bytes[0] == 0, 1);
    if (!refusing) SAYS(dq_text(d, 0, &text), "Mate");
    char said[100] = "x";
    IS((int64_t)dq_fault_text(DQ_CLOSED, said, sizeof said), 36);
    IS(strcmp(said, "the document or the policy is closed"), 0);
    IS((int64_t)dq_fault_text(DQ_CLOSED, said, 4), 36);
    IS(strcmp(said, "the"), 0);
    IS((int64_t)dq_fault_text(DQ_CLOSED, NULL, 4), 36);
    IS((int64_t)dq_fault_text(1, said, sizeof said), 0);
    IS(said[0], 0);
}

/* Null pointers are refused, and null texts of length 0 are empty. */
static void nulls(dq_document *d, dq_policy *p, dq_reader *r) {
    IS(dq_parse_page(NULL, T("x"), 0), DQ_NULL);
    IS(dq_parse_page(d, NULL, 1, 0), DQ_NULL);
    IS(dq_parse_page(d, "x", SIZE_MAX, 0), DQ_NULL);
    IS(dq_parse_bytes(d, NULL, 1, NULL, 0, 0), DQ_NULL);
    IS(dq_parse_bytes(d, "", 0, NULL, 1, 0), DQ_NULL);
    IS(dq_parse(NULL, T("x"), NULL), DQ_NULL);
    IS(dq_parse(d, NULL, 1, NULL), DQ_NULL);
    IS(dq_parse_fragment(d, NULL, 1, T("p")), DQ_NULL);
    IS(dq_parse_fragment(d, T("x"), NULL, 1), DQ_NULL);
    IS(dq_select(NULL, 0, T("p"), &nodes), DQ_NULL);
    IS(dq_select(d, 0, NULL, 1, &nodes), DQ_NULL);
    IS(dq_select(d, 0, T("p"), NULL), DQ_NULL);
    IS(dq_select_first(NULL, 0, T("p")), DQ_NULL);
    IS(dq_select_first(d, 0, NULL, 1), DQ_NULL);
    IS(dq_matches(NULL, 0, T("p")), DQ_NULL);
    IS(dq_matches(d, 0, NULL, 1), DQ_NULL);
    IS(dq_step(NULL, 0, DQ_PARENT), DQ_NULL);
    IS(dq_list(NULL, 0, DQ_CHILDREN, &nodes), DQ_NULL);
    IS(dq_list(d, 0, DQ_CHILDREN, NULL), DQ_NULL);
    IS(dq_template_contents(NULL, 0), DQ_NULL);
    IS(dq_text(NULL, 0, &text), DQ_NULL);
    IS(dq_text(d, 0, NULL), DQ_NULL);
    IS(dq_html(d, 0, NULL), DQ_NULL);
    IS(dq_inner_html(d, 0, NULL), DQ_NULL);
    IS(dq_markdown(d, 0, NULL), DQ_NULL);
    IS(dq_article(NULL, d, &several), DQ_NULL);
    IS(dq_article(d, NULL, &several), DQ_NULL);
    IS(dq_article(d, d, NULL), DQ_NULL);
    IS(dq_md(d, 0, NULL), DQ_NULL);
    IS(dq_formatted_text(d, 0, NULL), DQ_NULL);
    IS(dq_name(d, 0, NULL), DQ_NULL);
    IS(dq_attr(d, 0, NULL, 1, &text), DQ_NULL);
    IS(dq_attr(d, 0, T("id"), NULL), DQ_NULL);
    IS(dq_kind(NULL, 0), DQ_NULL);
    IS(dq_encoding(d, NULL), DQ_NULL);
    IS(dq_encoding_source(NULL), DQ_NULL);
    IS(dq_replaced_count(NULL), DQ_NULL);
    IS(dq_attrs(d, 0, NULL), DQ_NULL);
    IS(dq_classes(NULL, 0, &several), DQ_NULL);
    IS(dq_select_texts(d, 0, NULL, 1, &several), DQ_NULL);
    IS(dq_select_html(d, 0, T("p"), NULL), DQ_NULL);
    IS(dq_select_attrs(d, 0, T("p"), NULL, 1, &several), DQ_NULL);
    IS(dq_set_attr(d, 0, T("id"), NULL, 1), DQ_NULL);
    IS(dq_remove_attr(d, 0, NULL, 1), DQ_NULL);
    IS(dq_set_name(NULL, 0, T("p")), DQ_NULL);
    IS(dq_set_text(d, 0, NULL, 1), DQ_NULL);
    IS(dq_put_html(d, 0, DQ_AT_END, NULL, 1, NULL), DQ_NULL);
    IS(dq_new_element(NULL, T("p")), DQ_NULL);
    IS(dq_new_text(d, NULL, 1), DQ_NULL);
    IS(dq_move(NULL, 0, DQ_AT_END, 0), DQ_NULL);
    IS(dq_remove(NULL, 0), DQ_NULL);
    IS(dq_unwrap(NULL, 0), DQ_NULL);
    IS(dq_normalize(NULL, 0), DQ_NULL);
    IS(dq_sanitize(d, NULL, 1, NULL, 0, NULL, 0), DQ_NULL);
    IS(dq_reader_begin(NULL, NULL, 0, 0), DQ_NULL);
    IS(dq_reader_begin(r, NULL, 1, 0), DQ_NULL);
    IS(dq_reader_feed(NULL, T("x")), DQ_NULL);
    IS(dq_reader_feed(r, NULL, 1), DQ_NULL);
    IS(dq_reader_end(r, NULL), DQ_NULL);
    IS(dq_reader_end(NULL, d), DQ_NULL);
    IS(dq_policy_empty(NULL), DQ_NULL);
    IS(dq_policy_common(NULL), DQ_NULL);
    IS(dq_policy_finish(NULL, NULL), DQ_NULL);
    IS(dq_clean(NULL, T("x"), &text), DQ_NULL);
    IS(dq_clean(p, NULL, 1, &text), DQ_NULL);
    IS(dq_clean(p, T("x"), NULL), DQ_NULL);
    IS(dq_clean_page(p, T("x"), NULL), DQ_NULL);
    IS(dq_clean_document(p, NULL, &text), DQ_NULL);
    /* a rule that is null refuses the policy, so that it can't be forgotten */
    if (IS(dq_policy_common(p), 0)) {
        IS(dq_policy_rule(p, DQ_DISALLOW_ELEMENT, NULL, 3), DQ_NULL);
        IS(dq_policy_finish(p, NULL), DQ_ARGUMENT);
        IS(dq_clean(p, T("x"), &text), DQ_ARGUMENT);
    }
    if (IS(dq_policy_common(p), 0)) {
        IS(dq_policy_attribute_of(p, NULL, 1, T("id")), DQ_NULL);
        IS(dq_policy_disallow_attribute_of(p, T("p"), NULL, 1), DQ_ARGUMENT == DQ_NULL ? 0 : DQ_NULL);
        IS(dq_policy_value(p, T("p"), T("id"), NULL, 1), DQ_NULL);
        IS(dq_policy_base(p, NULL, 1), DQ_NULL);
        IS(dq_policy_set(NULL, DQ_DEPTH, 1), DQ_NULL);
        IS(dq_policy_finish(p, NULL), DQ_ARGUMENT);
    }
    dq_document_free(NULL);
    dq_policy_free(NULL);
    dq_reader_free(NULL);
    dq_string_free(NULL);
    dq_nodes_free(NULL);
    dq_strings_free(NULL);
    if (IS(dq_parse_page(d, NULL, 0, 0), 0)) SAYS(dq_html(d, 0, &text), "<html><head></head><body></body></html>");
}

/* A page in pieces, which is cut everywhere; and readers that have no page. */
static void pieces(dq_reader *r, dq_document *d) {
    static const char page[] = "<p>\xd0\xa7<b id=x>2</b>";
    size_t i;
    IS(dq_reader_feed(r, T("x")), DQ_CLOSED);
    IS(dq_reader_end(r, d), DQ_CLOSED);
    IS(dq_reader_begin(r, T("koi9"), 512), DQ_UNKNOWN_LABEL);
    if (!IS(dq_reader_begin(r, T("utf-8"), 512), 0)) return;
    for (i = 0; page[i]; i++)
        if (!IS(dq_reader_feed(r, page + i, 1), 0)) break;
    if (IS(dq_reader_end(r, d), 0)) {
        SAYS(dq_html(d, 0, &text), "<html><head></head><body><p>\xd0\xa7<b id=\"x\">2</b></p></body></html>");
        SAYS(dq_encoding(d, &text), "UTF-8");
        IS(dq_replaced_count(d), 0);
    }
    IS(dq_reader_end(r, d), DQ_CLOSED);
    if (IS(dq_reader_begin(r, NULL, 0, 512), 0) && IS(dq_reader_feed(r, T("<p>a")), 0)) dq_reader_free(r);
}

#define HOW "is picked by hand, leaf by leaf, in the cool of the morning, before the sun is over the hills, and then dried in the shade of the trees."

/* The article of a page, in a handle of its own or in the page's. */
static void articles(dq_document *d) {
    static const char page[] = "<html lang=de><title>Tea</title><meta name=author content=Asha><nav>Home</nav>"
        "<script type=application/ld+json>{\"@type\":\"NewsArticle\",\"headline\":\"Green tea\",\"image\":\"/a.png\"}</script>"
        "<main><p>Tea, <b>green</b> or black, " HOW "</main>";
    dq_document article = DQ_DOCUMENT_INIT;
    if (!IS(dq_parse_page(d, T(page), 512), 0)) return;
    if (IS(dq_article(d, &article, &several), 1)) {
        LISTS((int64_t)several.count, "Green tea|Asha|-|de|-|-|/a.png");
        IS(dq_kind(&article, 0), DQ_DOCUMENT);
        SAYS(dq_html(&article, 0, &text), "<main><p>Tea, <b>green</b> or black, " HOW "</p></main>");
        SAYS(dq_markdown(&article, 0, &text), "Tea, **green** or black, " HOW);
        SAYS(dq_name(d, 1, &text), "html");
    }
    /* after a fault both handles hold what they held */
    if (IS(dq_parse_page(d, T("<p hidden>Tea"), 512), 0) && article.full) {
        IS(dq_article(d, &article, &several), DQ_NOTHING);
        IS((int64_t)several.count, 0);
        SAYS(dq_formatted_text(&article, 0, &text), "Tea, green or black, " HOW);
        SAYS(dq_name(d, 1, &text), "html");
    }
    /* the article in the place of its page, and one that isn't sure */
    if (IS(dq_parse_page(d, T("<p>Tea"), 512), 0) && IS(dq_article(d, d, &several), 0)) {
        LISTS((int64_t)several.count, "-|-|-|-|-|-|-");
        SAYS(dq_html(d, 0, &text), "<p>Tea</p>");
    }
    dq_document_free(&article);
    IS(dq_article(&article, d, &several), DQ_CLOSED);
}

/* Contents of templates, answers that are larger than the room, and answers that are used again. */
static void contents(dq_document *d) {
    static char large[5000];
    int64_t fragment;
    memset(large, 'x', sizeof large);
    if (IS(dq_parse_page(d, T("<template><b>1</b></template>"), 0), 0)) {
        int64_t template_node = dq_select_first(d, 0, T("template"));
        if (template_node >= 0) {
            fragment = dq_template_contents(d, (uint32_t)template_node);
            if (fragment >= 0) IS(dq_kind(d, (uint32_t)fragment), DQ_FRAGMENT);
            SAYS(dq_inner_html(d, (uint32_t)template_node, &text), "<b>1</b>");
            IS(dq_put_html(d, (uint32_t)template_node, DQ_AT_END, T("<i>2</i>"), NULL), 0);
            if (!refusing) SAYS(dq_html(d, (uint32_t)template_node, &text), "<template><b>1</b><i>2</i></template>");
            IS(dq_put_html(d, (uint32_t)template_node, DQ_AS_CONTENTS, T("<u>3</u>"), NULL), 0);
            if (!refusing) SAYS(dq_inner_html(d, (uint32_t)template_node, &text), "<u>3</u>");
        }
    }
    if (IS(dq_parse_page(d, large, sizeof large, 0), 0)) {
        if (IS(dq_text(d, 0, &text), sizeof large)) IS(text.bytes[sizeof large] == 0 && memcmp(text.bytes, large, sizeof large) == 0, 1);
        LISTS(dq_select_texts(d, 0, T("i"), &several), "");
        if (IS(dq_select_texts(d, 0, T("body"), &several), 1)) IS((int64_t)several.items[0].length, sizeof large);
    }
    if (IS(dq_parse_page(d, T("<i><i><i><i><i><i><i><i><i><i><i><i><i><i><i><i><i><i><i><i><i><i><i><i><i><i><i><i><i><i><i><i>"), 0), 0)) {
        if (IS(dq_select(d, 0, T("i"), &nodes), 32)) IS(nodes.numbers[31] == nodes.numbers[30] + 1, 1);
    }
}

int main(int count, char **words) {
    dq_document d = DQ_DOCUMENT_INIT;
    dq_policy p = DQ_POLICY_INIT;
    dq_reader r = DQ_READER_INIT;
    (void)words;
    refusing = count > 1;
    IS(strcmp(dq_version(), DQ_VERSION), 0);
    IS(DQ_VERSION_NUMBER, DQ_VERSION_MAJOR * 10000 + DQ_VERSION_MINOR * 100 + DQ_VERSION_PATCH);
    closed(&d);
    no_policy(&p, &d);
    if (IS(dq_parse(&d, T(SMALL), NULL), 0)) {
        reading(&d);
        editing(&d);
        misuse(&d);
    }
    if (IS(dq_parse_page(&d, T("<p>Tea<td>\xff"), 512), 0)) SAYS(dq_text(&d, 0, &text), "Tea\xef\xbf\xbd");
    if (IS(dq_parse_fragment(&d, T("<td>1<td>2"), T("tr")), 0)) LISTS(dq_select_texts(&d, 0, T("td"), &several), "1|2");
    if (IS(dq_parse(&d, T(SMALL), NULL), 0)) decoding(&d);
    cleaning(&p, &d);
    unsound(&p);
    nulls(&d, &p, &r);
    pieces(&r, &d);
    contents(&d);
    articles(&d);
    dq_document_free(&d);
    if (dq_policy_common(&p) == 0 && dq_policy_finish(&p, NULL) == 0) IS(dq_clean_document(&p, &d, &text), DQ_CLOSED);
    dq_policy_free(&p);
    closed(&d);
    no_policy(&p, &d);
    dq_reader_free(&r);
    dq_string_free(&text);
    dq_nodes_free(&nodes);
    dq_strings_free(&several);
    return wrong;
}
