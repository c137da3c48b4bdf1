/* Reads a page from standard input by gumbo, and prints how many elements it has. */
#include <gumbo.h>
#include <stdio.h>
#include <stdlib.h>

enum { MOST = 1 << 26 };

/* The elements below a node, and the node itself where it is one. Nodes are counted in the order of a stack, not by recursion. */
static long count(GumboNode *top, size_t bytes) {
    GumboNode **open = malloc((bytes + 8) * sizeof *open);
    size_t length = 0;
    long found = 0;
    if (!open) return -1;
    open[length++] = top;
    while (length) {
        GumboNode *node = open[--length];
        if (node->type != GUMBO_NODE_ELEMENT && node->type != GUMBO_NODE_TEMPLATE) continue;
        found++;
        for (unsigned at = 0; at < node->v.element.children.length && length < bytes + 8; at++)
            open[length++] = node->v.element.children.data[at];
    }
    free(open);
    return found;
}

int main(void) {
    char *page = malloc(MOST);
    if (!page) return 1;
    size_t length = fread(page, 1, MOST, stdin);
    GumboOutput *read = gumbo_parse_with_options(&kGumboDefaultOptions, page, length);
    if (!read) return 1;
    printf("%ld\n", count(read->root, length));
    gumbo_destroy_output(&kGumboDefaultOptions, read);
    free(page);
    return 0;
}
