// ceal.hpp: a session of ceal.h that is closed at the end of its scope, for C++11 and later.
//
//     ceal_session c;
//     if (ceal_open(c, text.data(), text.size(), 1000000, fault, sizeof fault) == CEAL_OK)
//         ceal_line(c, "mod a int 4", 11);
//
// It is handed to each call of ceal.h as it is. It can be moved, and not copied.
#ifndef CEAL_HPP
#define CEAL_HPP

#include "ceal.h"

#include <utility>

class ceal_session {
public:
    ceal_session() = default;
    ceal_session(ceal_session &&other) noexcept { std::swap(kept, other.kept); }
    ceal_session &operator=(ceal_session &&other) noexcept {
        std::swap(kept, other.kept);
        return *this;
    }
    ~ceal_session() { ceal_close(&kept); } // (of one that is closed this does nothing)
    operator ceal *() { return &kept; }

private:
    ceal kept = CEAL_INIT;
};

#endif
