/* Prints what a policy leaves of the comment on standard input, of less than 64 KiB: a few harmless elements, links, and no scripts.
 *
 *   gcc -o clean clean.c $(pkg-config --cflags --libs dom_query)
 *   echo '<p onclick=x()>Tea <a href=javascript:x()>free</a><script>x()</script>' | ./clean
 */
#include <dom_query.h>
#include <stdio.h>
#include <string.h>

#define TEXT(s) (s), strlen(s)

static const char *ELEMENTS[] = {"a", "b", "blockquote", "br", "code", "em", "i", "li", "ol", "p", "pre", "strong", "ul"};
static const char *DROPPED[] = {"script", "style", "svg", "math", "iframe"};
static const char *SCHEMES[] = {"http", "https", "mailto"};

/* Makes the policy. The first fault of all these calls is the answer of the last. */
static int64_t make(dq_policy *policy) {
    int64_t fault = dq_policy_empty(policy);
    if (fault < 0) return fault;
    for (size_t i = 0; i < sizeof ELEMENTS / sizeof *ELEMENTS; i++) dq_policy_rule(policy, DQ_ALLOW_ELEMENT, TEXT(ELEMENTS[i]));
    for (size_t i = 0; i < sizeof DROPPED / sizeof *DROPPED; i++) dq_policy_rule(policy, DQ_DROP_ELEMENT, TEXT(DROPPED[i]));
    for (size_t i = 0; i < sizeof SCHEMES / sizeof *SCHEMES; i++) dq_policy_rule(policy, DQ_ALLOW_SCHEME, TEXT(SCHEMES[i]));
    dq_policy_attribute_of(policy, TEXT("a"), TEXT("href"));
    dq_policy_rule(policy, DQ_LINK_REL, TEXT("nofollow noopener"));
    return dq_policy_finish(policy, NULL);
}

int main(void) {
    static char comment[1 << 16];
    size_t length = fread(comment, 1, sizeof comment, stdin);
    if (length == sizeof comment) {
        fprintf(stderr, "clean: the comment is too long\n");
        return 1;
    }
    dq_policy policy = DQ_POLICY_INIT;
    dq_string cleaned = DQ_STRING_INIT;
    int64_t answer = make(&policy);
    if (answer >= 0) answer = dq_clean(&policy, comment, length, &cleaned);
    if (answer >= 0) {
        printf("%s\n", cleaned.bytes);
    } else {
        char fault[100];
        dq_fault_text(answer, fault, sizeof fault);
        fprintf(stderr, "clean: %s\n", fault);
    }
    dq_string_free(&cleaned);
    dq_policy_free(&policy);
    return answer < 0;
}
