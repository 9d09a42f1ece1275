// The library's calls, in place of its own: any one of them answers what no call answers.
#include <cstring>
#include <dlfcn.h>

// Of the calls that are made from now on, this one does (none if it is 0).
inline std::atomic<long> made{0}, strange{0};
inline std::atomic<const char *> who{""}; // which that was

template <class Call> Call *real(const char *name) {
    void *const found = dlsym(RTLD_NEXT, name);
    Call *call;
    std::memcpy(&call, &found, sizeof call);
    return call;
}
template <class Call, class... Given> std::uint32_t answer(const char *name, Given... given) {
    if (++made != strange) return real<Call>(name)(given...);
    who = name;
    return 99;
}

#define CALL1(name, A)                                                                                                                     \
    std::uint32_t name(A a) { return answer<decltype(name)>(#name, a); }
#define CALL2(name, A, B)                                                                                                                  \
    std::uint32_t name(A a, B b) { return answer<decltype(name)>(#name, a, b); }
#define CALL3(name, A, B, C)                                                                                                               \
    std::uint32_t name(A a, B b, C c) { return answer<decltype(name)>(#name, a, b, c); }
#define CALL4(name, A, B, C, D)                                                                                                            \
    std::uint32_t name(A a, B b, C c, D d) { return answer<decltype(name)>(#name, a, b, c, d); }
#define CALL5(name, A, B, C, D, E)                                                                                                         \
    std::uint32_t name(A a, B b, C c, D d, E e) { return answer<decltype(name)>(#name, a, b, c, d, e); }
#define CALL6(name, A, B, C, D, E, F)                                                                                                      \
    std::uint32_t name(A a, B b, C c, D d, E e, F f) { return answer<decltype(name)>(#name, a, b, c, d, e, f); }
#define CALL7(name, A, B, C, D, E, F, G)                                                                                                   \
    std::uint32_t name(A a, B b, C c, D d, E e, F f, G g) { return answer<decltype(name)>(#name, a, b, c, d, e, f, g); }
#define CALL9(name, A, B, C, D, E, F, G, H, I)                                                                                             \
    std::uint32_t name(A a, B b, C c, D d, E e, F f, G g, H h, I i) { return answer<decltype(name)>(#name, a, b, c, d, e, f, g, h, i); }

using bytes = const std::uint8_t *;
using out = std::uint8_t *;
using number = std::uint32_t;
using large = std::uint64_t;

// What should be so as long as every call answers as it should.
struct wrong : std::logic_error {
    using std::logic_error::logic_error;
};
inline void is_so(const char *what, bool it) {
    if (!it) throw wrong(what);
}

// Any one of the calls that these make answers what it never should: somebody is told.
inline void each_is_told(const std::string &name, const std::function<void()> &calls) {
    for (long at = 1;; at++) {
        std::string told;
        made = 0;
        strange = at;
        try {
            calls();
        } catch (const std::exception &fault) {
            told = fault.what();
        }
        strange = 0;
        if (made < at) return expect(name + ": " + told, told.empty() && at > 4);
        expect(name + ": call " + std::to_string(at) + " of " + std::to_string(made) + ", " + who.load(), !told.empty());
    }
}
