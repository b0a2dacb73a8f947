// cpptoml: read. Status 0 where the text was read, 1 where it was refused.
#include <cstdint>
#include <iostream>
#include <limits>
#include <string>
#include <cpptoml.h>

int main()
{
    std::ios::sync_with_stdio(false);
    try {
        cpptoml::parser(std::cin).parse();
        return 0;
    } catch (const cpptoml::parse_exception &error) {
        std::cerr << error.what() << '\n';
        return 1;
    }
}
