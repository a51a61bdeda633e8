#include <girzohal.h>
#include <stdio.h>

int main(void) {
    girzohal_sources sources = {0};
    uint32_t cart = girzohal_sources_add(&sources, "cart.js", "let total = 1;\nprint(totl);\n");
    girzohal_sources_report(&sources, cart, GIRZOHAL_ERROR, "`totl` isn't defined.");
    girzohal_sources_code(&sources, "eslint", "no-undef");
    girzohal_sources_primary(&sources, 21, 25, "not found");
    girzohal_sources_help(&sources, "Did you mean `total`?");
    uint32_t status = girzohal_sources_draw(&sources, NULL);
    if (status == GIRZOHAL_DONE) fputs(sources.out, stdout);
    girzohal_sources_free(&sources);
    return (int)status;
}
