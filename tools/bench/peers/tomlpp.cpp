// toml++: read | tidy. Status 0 where the text was read (and written), 1 where it was refused.
#include <iostream>
#include <iterator>
#include <string>
#include <string_view>
#include <toml++/toml.h>

static int answer(const std::string &text, bool tidy)
{
    try {
        toml::table table = toml::parse(text);
        if (tidy)
            std::cout << toml::toml_formatter{table} << '\n';
        return 0;
    } catch (const toml::parse_error &error) {
        std::cerr << error << '\n';
        return 1;
    }
}

int main(int count, char **words)
{
    std::ios::sync_with_stdio(false);
    std::string text(std::istreambuf_iterator<char>(std::cin), {});
    return answer(text, count > 1 && std::string_view(words[1]) == "tidy");
}
