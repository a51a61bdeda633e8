#include <girzohal.hpp>
#include <iostream>

int main() {
    girzohal::Sources sources;
    uint32_t cart = sources.add("cart.js", "let total = 1;\nprint(totl);\n");
    sources.error(cart, "`totl` isn't defined.")
        .code("eslint", "no-undef")
        .primary(21, 25, "not found")
        .help("Did you mean `total`?");
    std::cout << sources.draw();
}
