// Tries client/ceal.hpp: a session in C++ is closed at the end of its scope, and can be moved.
#include "ceal.hpp"

#include <cstdint>
#include <cstdio>
#include <string>
#include <type_traits>
#include <vector>

static_assert(!std::is_copy_constructible<ceal_session>::value && !std::is_copy_assignable<ceal_session>::value, "");

static const std::string INC = "ceal inc(mod int *a, mod int *b) { int x = read(a); write(b, x + 1); }\n%%\n";
static int wrong;

static void need(bool is_well, const char *what) {
    if (!is_well) std::printf("wrong: %s\n", what);
    wrong += !is_well;
}

static ceal_status line(ceal *c, const std::string &text) {
    return ceal_line(c, text.data(), text.size());
}

// A session in which b is one more than the number.
static ceal_session opened(int number) {
    ceal_session c;
    char fault[CEAL_FAULT_SIZE];
    need(ceal_open(c, INC.data(), INC.size(), 1000, fault, sizeof fault) == CEAL_OK, "opening");
    need(line(c, "mod a int " + std::to_string(number)) == CEAL_OK, "a");
    need(line(c, "mod b int 0") == CEAL_OK && line(c, "run inc a b") == CEAL_OK, "the run");
    return c;
}

static std::int64_t found(ceal *c) {
    std::int64_t number = -1;
    need(ceal_get_named(c, "b", 1, &number) == CEAL_OK, "b");
    return number;
}

int main() {
    ceal_session none;
    need(ceal_ready(none) == CEAL_CLOSED, "a session that was not opened");
    std::vector<ceal_session> all;
    for (int number = 0; number < 50; number++) all.push_back(opened(number));
    for (int number = 0; number < 50; number++) need(found(all[number]) == number + 1, "a session in a vector");
    ceal_session one = std::move(all[7]);
    need(found(one) == 8 && ceal_ready(all[7]) == CEAL_CLOSED, "a session that was moved");
    one = opened(70);
    need(found(one) == 71, "a session that was assigned");
    need(ceal_close(one) == CEAL_OK && ceal_close(one) == CEAL_CLOSED, "closing");
    std::printf("%d wrong\n", wrong);
    return wrong != 0;
}
