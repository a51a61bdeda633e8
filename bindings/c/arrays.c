/* The arrays of girzohal_draw, laid out by hand: nothing here allocates. */
#include <girzohal.h>
#include <stdio.h>

int main(void) {
    uint8_t texts[256], out[4096];
    size_t len = 0;
#define TEXT(text) girzohal_put(texts, sizeof texts, &len, text)
    girzohal_file file = {TEXT("cart.js"), TEXT("let total = 1;\nprint(totl);\n")};
    girzohal_label label = {21, 25, TEXT("not found"), 1};
    girzohal_report report = {0,           GIRZOHAL_ERROR,   TEXT("`totl` isn't defined."),
                              TEXT("eslint"), TEXT("no-undef"), TEXT("Did you mean `total`?"),
                              TEXT(NULL),  TEXT(NULL),       0, 1};
    girzohal_look look = {GIRZOHAL_UNICODE_NOCOLOR, 4, GIRZOHAL_DRAWING, 80};
    girzohal_answer answer;
    uint32_t status = girzohal_draw(GIRZOHAL_ABI, texts, len, &file, 1, &report, 1, &label, 1, &look, out, sizeof out, &answer);
    if (status == GIRZOHAL_DONE) fwrite(out, 1, answer.needed, stdout);
    return (int)status;
}
