/* Prints the text and the address of each link of the page on standard input, which is read in pieces.
 *
 *   gcc -o links links.c $(pkg-config --cflags --libs dom_query)
 *   curl -s https://example.com/ | ./links
 */
#include <dom_query.h>
#include <stdio.h>
#include <string.h>

/* Reads the page on a stream: 0, or a fault. */
static int64_t read_page(FILE *in, dq_document *page) {
    dq_reader reader = DQ_READER_INIT;
    char piece[1 << 16];
    size_t length;
    int64_t answer = dq_reader_begin(&reader, NULL, 0, 512);
    while (answer >= 0 && (length = fread(piece, 1, sizeof piece, in)) > 0) answer = dq_reader_feed(&reader, piece, length);
    if (answer >= 0) answer = dq_reader_end(&reader, page);
    dq_reader_free(&reader);
    return answer;
}

int main(void) {
    dq_document page = DQ_DOCUMENT_INIT;
    dq_nodes links = DQ_NODES_INIT;
    dq_string text = DQ_STRING_INIT, address = DQ_STRING_INIT;
    int64_t answer = read_page(stdin, &page);
    if (answer >= 0) answer = dq_select(&page, 0, "a[href]", strlen("a[href]"), &links);
    for (size_t at = 0; at < links.count && answer >= 0; at++) {
        answer = dq_text(&page, links.numbers[at], &text);
        if (answer >= 0) answer = dq_attr(&page, links.numbers[at], "href", 4, &address);
        if (answer >= 0) printf("%s: %s\n", text.bytes, address.bytes);
    }
    if (answer < 0) {
        char fault[100];
        dq_fault_text(answer, fault, sizeof fault);
        fprintf(stderr, "links: %s\n", fault);
    }
    dq_string_free(&text);
    dq_string_free(&address);
    dq_nodes_free(&links);
    dq_document_free(&page);
    return answer < 0;
}
