/* Draws once what a file holds, and once the same document in JSON, for counting instructions: bindings/speed.py writes both, and
 * reads the counts.
 * usage: speed FILE DRAWING   (four numbers of 64 bits, how many bytes, files, reports and labels, and then these; FILE.json) */
#include <girzohal.h>

#include <stdio.h>
#include <stdlib.h>
#include <string.h>

static void *take(FILE *from, size_t count, size_t size) {
    void *made = malloc(count * size + 8);
    if (made == NULL || fread(made, size, count, from) != count) exit(2);
    return made;
}

/* draws the document in JSON, which has to be the same as what was drawn */
static int is_same(const char *name, const girzohal_look *look, const uint8_t *drawn, size_t len) {
    char path[4096];
    girzohal_answer answer;
    snprintf(path, sizeof path, "%s.json", name);
    FILE *from = fopen(path, "rb");
    if (from == NULL || fseek(from, 0, SEEK_END) != 0) exit(2);
    size_t size = (size_t)ftell(from);
    rewind(from);
    uint8_t *document = take(from, size, 1), *out = malloc(len);
    if (out == NULL) exit(2);
    return girzohal_document(GIRZOHAL_ABI, document, size, look, out, len, &answer) == GIRZOHAL_DONE && answer.needed == len && memcmp(out, drawn, len) == 0;
}

int main(int count, char **words) {
    uint64_t lens[4];
    FILE *from = count == 3 ? fopen(words[1], "rb") : NULL, *to;
    if (from == NULL || fread(lens, 8, 4, from) != 4) return 2;
    uint8_t *texts = take(from, lens[0], 1);
    girzohal_file *files = take(from, lens[1], sizeof *files);
    girzohal_report *reports = take(from, lens[2], sizeof *reports);
    girzohal_label *labels = take(from, lens[3], sizeof *labels);
    girzohal_look look = {GIRZOHAL_NONE, 4, GIRZOHAL_DRAWING, 80};
    girzohal_answer answer;
    size_t room = (size_t)1 << 28;
    uint8_t *out = malloc(room);
    if (out == NULL) return 2;
    uint32_t status = girzohal_draw(GIRZOHAL_ABI, texts, lens[0], files, lens[1], reports, lens[2], labels, lens[3], &look, out, room, &answer);
    if (status == GIRZOHAL_DONE && !is_same(words[1], &look, out, answer.needed)) return 3;
    to = fopen(words[2], "wb");
    if (status != GIRZOHAL_DONE || to == NULL || fwrite(out, 1, answer.needed, to) != answer.needed) return 1;
    return fclose(to) != 0;
}
