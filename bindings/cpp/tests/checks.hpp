/* What the tests of rectangle_pack.hpp share. To be included once in a program, which is linked with
   -Wl,--wrap=malloc,--wrap=realloc. */
#ifndef CHECKS_HPP
#define CHECKS_HPP

#include <cstddef>
#include <cstdint>
#include <cstdio>
#include <cstdlib>
#include <cstring>

#include "rectangle_pack.hpp"

namespace rp = rectangle_pack;
using rp::BinId;
using rp::Status;

/* Whether the library's requests for memory are refused. */
static bool refusing = false;

extern "C" {
void *__real_malloc(std::size_t size);
void *__real_realloc(void *block, std::size_t size);
void *__wrap_malloc(std::size_t size);
void *__wrap_realloc(void *block, std::size_t size);

void *__wrap_malloc(std::size_t size)
{
    return refusing ? nullptr : __real_malloc(size);
}

void *__wrap_realloc(void *block, std::size_t size)
{
    return refusing ? nullptr : __real_realloc(block, size);
}
}

static void check(bool holds, const char *what)
{
    if (!holds) {
        std::fprintf(stderr, "test: %s\n", what);
        std::exit(1);
    }
}

#ifdef __cpp_exceptions

/* The refusal that a call throws, or done. */
template <class Call> static Status refusal(Call call)
{
    try {
        call();
    } catch (const rp::Error &error) {
        check(std::strcmp(error.what(), rp::text(error.status())) == 0, "an error has another text than its status");
        return error.status();
    }
    return Status::done;
}

template <class Call> static void must_be(Status status, Call call, const char *what)
{
    check(refusal(call) == status, what);
}

#endif

#endif
