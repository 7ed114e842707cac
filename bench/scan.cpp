// The peer of `bench tokens`: a scanner by hand of the same small part of Prolog that the generated
// texts are made of: names, variables, graphic names, brackets, commas, ends and comments. It cuts
// the file into kinds with places once, prints how many there are, and on standard error how many
// microseconds that took.
#include <chrono>
#include <cstdint>
#include <cstdio>
#include <fstream>
#include <iterator>
#include <string>
#include <vector>

enum class Kind : uint8_t { Name, Variable, Open, Close, Comma, End };

struct Token {
    Kind kind;
    bool after_layout;
    uint32_t start, end;
};

static bool is_word(char c) { return (c >= 'a' && c <= 'z') || (c >= 'A' && c <= 'Z') || (c >= '0' && c <= '9') || c == '_'; }
static bool is_graphic(char c) {
    switch (c) {
    case '#': case '$': case '&': case '*': case '+': case '-': case '.': case '/': case ':': case '<': case '=': case '>': case '?': case '@': case '^': case '~': case '\\':
        return true;
    default:
        return false;
    }
}
static bool is_white(char c) { return c == ' ' || (c >= '\t' && c <= '\r'); }

// The end of the layout that begins at `at`. The text ends with a 0.
static const char *layout_end(const char *at) {
    for (;;) {
        if (is_white(*at)) {
            at++;
        } else if (*at == '%') {
            while (*at && *at != '\n') at++;
        } else if (*at == '/' && at[1] == '*') {
            at += 2;
            while (*at && !(*at == '*' && at[1] == '/')) at++;
            if (*at) at += 2;
        } else {
            return at;
        }
    }
}

static std::vector<Token> cut(const std::string &text) {
    std::vector<Token> found;
    const char *begin = text.c_str(), *at = begin;
    for (;;) {
        const char *start = layout_end(at), *end = start + 1;
        if (!*start) return found;
        Kind kind;
        if (is_word(*start)) {
            kind = *start >= 'a' ? Kind::Name : Kind::Variable;
            while (is_word(*end)) end++;
        } else if (is_graphic(*start)) {
            while (is_graphic(*end)) end++;
            bool ends = end == start + 1 && *start == '.' && (!*end || is_white(*end) || *end == '%');
            kind = ends ? Kind::End : Kind::Name;
        } else {
            kind = *start == '(' ? Kind::Open : *start == ')' ? Kind::Close : Kind::Comma;
        }
        found.push_back({kind, at == begin || at < start, uint32_t(start - begin), uint32_t(end - begin)});
        at = end;
    }
}

int main(int argc, char **argv) {
    if (argc != 2) return 2;
    std::ifstream file(argv[1], std::ios::binary);
    std::string text((std::istreambuf_iterator<char>(file)), std::istreambuf_iterator<char>());
    auto begun = std::chrono::steady_clock::now();
    auto found = cut(text);
    auto took = std::chrono::steady_clock::now() - begun;
    std::fprintf(stderr, "%lld\n", (long long)std::chrono::duration_cast<std::chrono::microseconds>(took).count());
    std::printf("%zu\n", found.size());
}
