/* Threads that share a policy, a document and a reader: each answer is its own thread's. Status 0: all are right. */
#include "dom_query.h"
#include <pthread.h>
#include <stdio.h>
#include <string.h>

enum { THREADS = 6, TURNS = 300 };
static dq_policy policy = DQ_POLICY_INIT;
static dq_document shared = DQ_DOCUMENT_INIT;
static uint32_t nodes[THREADS];

static void *work(void *given) {
    int number = *(int *)given, wrong = 0;
    char html[6000], wanted[6000];
    dq_document own = DQ_DOCUMENT_INIT;
    dq_string text = DQ_STRING_INIT;
    dq_strings several = DQ_STRINGS_INIT;
    dq_nodes found = DQ_NODES_INIT;
    memset(wanted, 'a' + number, sizeof wanted);
    for (int turn = 0; turn < TURNS && !wrong; turn++) {
        int length = turn % 7 * 900;
        snprintf(html, sizeof html, "<b onclick=x>%.*s%d</b><i>", length, wanted, number);
        if (dq_clean(&policy, html, strlen(html), &text) != (int64_t)strlen(html) - 13) wrong = __LINE__;
        else if (memcmp(text.bytes + 3, html + 13, (size_t)length + 1)) wrong = __LINE__;
        if (dq_text(&shared, nodes[number], &text) != 5000 || text.bytes[4999] != 'a' + number) wrong = __LINE__;
        if (dq_select_texts(&shared, 0, "p", 1, &several) != THREADS || several.items[number].bytes[0] != 'a' + number) wrong = __LINE__;
        if (dq_select(&shared, 0, "p", 1, &found) != THREADS || found.numbers[number] != nodes[number]) wrong = __LINE__;
        if (dq_parse_page(&own, html, strlen(html), 512) != 0 || dq_clean_document(&policy, &own, &text) < 0) wrong = __LINE__;
        if (dq_set_attr(&shared, nodes[number], "id", 2, html, 3) != 0) wrong = __LINE__;
    }
    dq_string_free(&text);
    dq_strings_free(&several);
    dq_nodes_free(&found);
    dq_document_free(&own);
    *(int *)given = wrong;
    return NULL;
}

int main(void) {
    static char page[THREADS * 5010];
    char *at = page;
    int given[THREADS], wrong = 0;
    pthread_t threads[THREADS];
    dq_nodes found = DQ_NODES_INIT;
    for (int number = 0; number < THREADS; number++) {
        memcpy(at, "<p>", 3);
        memset(at + 3, 'a' + number, 5000);
        at += 5003;
    }
    dq_policy_empty(&policy);
    dq_policy_rule(&policy, DQ_ALLOW_ELEMENT, "b", 1);
    if (dq_policy_finish(&policy, NULL) < 0 || dq_parse_page(&shared, page, (size_t)(at - page), 512) < 0) return 1;
    if (dq_select(&shared, 0, "p", 1, &found) != THREADS) return 1;
    memcpy(nodes, found.numbers, sizeof nodes);
    for (int number = 0; number < THREADS; number++) {
        given[number] = number;
        if (pthread_create(&threads[number], NULL, work, &given[number])) return 1;
    }
    for (int number = 0; number < THREADS; number++) {
        pthread_join(threads[number], NULL);
        if (given[number]) wrong = printf("thread %d: line %d\n", number, given[number]);
    }
    dq_nodes_free(&found);
    dq_document_free(&shared);
    dq_policy_free(&policy);
    return wrong != 0;
}
