/* The tree that psa_text's scanner makes of a text, made by expat, to compare with psa_text_bench:
   gcc -O2 benchmarks/expat_tree.c -lexpat (Debian: libexpat1-dev). Reads standard input; with the word `events`
   it makes no tree. */
#include <expat.h>
#include <stdio.h>
#include <stdlib.h>
#include <string.h>

struct element {
    char *tag;
    unsigned long line;
    char **attributes; /* names and values in turn */
    size_t attribute_count;
    struct element **children;
    size_t child_count, child_room;
};

static XML_Parser parser;
static struct element *open_elements[64], *root;
static size_t depth;

static void add_child(struct element *parent, struct element *child) {
    if (parent->child_count == parent->child_room) {
        parent->child_room = parent->child_room ? 2 * parent->child_room : 4;
        parent->children = realloc(parent->children, parent->child_room * sizeof *parent->children);
    }
    parent->children[parent->child_count++] = child;
}

static void begin(void *data, const char *tag, const char **attributes) {
    (void)data;
    struct element *element = calloc(1, sizeof *element);
    element->tag = strdup(tag);
    element->line = XML_GetCurrentLineNumber(parser);
    while (attributes[element->attribute_count])
        element->attribute_count++;
    if (element->attribute_count)
        element->attributes = malloc(element->attribute_count * sizeof *element->attributes);
    for (size_t i = 0; i < element->attribute_count; i++)
        element->attributes[i] = strdup(attributes[i]);
    if (depth)
        add_child(open_elements[depth - 1], element);
    else
        root = element;
    if (depth == 64)
        exit(2);
    open_elements[depth++] = element;
}

static void end(void *data, const char *tag) {
    (void)data;
    (void)tag;
    depth--;
}

static void drop(struct element *element) {
    for (size_t i = 0; i < element->child_count; i++)
        drop(element->children[i]);
    for (size_t i = 0; i < element->attribute_count; i++)
        free(element->attributes[i]);
    free(element->attributes);
    free(element->children);
    free(element->tag);
    free(element);
}

int main(int count, char **words) {
    static char piece[65536];
    size_t length;
    parser = XML_ParserCreate(NULL);
    if (count < 2 || strcmp(words[1], "events"))
        XML_SetElementHandler(parser, begin, end);
    do {
        length = fread(piece, 1, sizeof piece, stdin);
        if (XML_Parse(parser, piece, (int)length, length == 0) == XML_STATUS_ERROR)
            return 1;
    } while (length > 0);
    if (root) {
        printf("elements in the root: %zu\n", root->child_count);
        drop(root);
    }
    XML_ParserFree(parser);
    return 0;
}
