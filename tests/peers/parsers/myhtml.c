/* Reads a page from standard input by MyHTML, in one thread, and prints how many elements `a` it has. */
#include <myhtml/api.h>
#include <stdio.h>
#include <stdlib.h>

enum { MOST = 1 << 26 };

int main(void) {
    char *page = malloc(MOST);
    if (!page) return 1;
    size_t length = fread(page, 1, MOST, stdin);
    myhtml_t *reader = myhtml_create();
    myhtml_tree_t *tree = myhtml_tree_create();
    if (myhtml_init(reader, MyHTML_OPTIONS_PARSE_MODE_SINGLE, 1, 0) || myhtml_tree_init(tree, reader)) return 1;
    if (myhtml_parse(tree, MyENCODING_UTF_8, page, length)) return 1;
    myhtml_collection_t *found = myhtml_get_nodes_by_name(tree, NULL, "a", 1, NULL);
    printf("%zu\n", found ? found->length : 0);
    myhtml_collection_destroy(found);
    myhtml_tree_destroy(tree);
    myhtml_destroy(reader);
    free(page);
    return 0;
}
