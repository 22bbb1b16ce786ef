// The call runs on a stack of its own that was painted before; the lowest byte that lost its paint shows how deep the call went.
#include "stack.hpp"

#include <ucontext.h>

#include <algorithm>

namespace {

constexpr uint8_t kPaint = 0xa5;

struct Call {
    Schedule schedule;
    const File *file;
    std::vector<uint8_t> out;
} call;

ucontext_t here, there;

void nothing() {}

void run() { call.schedule(call.file->data(), call.file->size(), call.out.data(), call.out.size()); }

size_t used_by(void (*entry)()) {
    std::vector<uint8_t> stack(size_t(1) << 20, kPaint);
    getcontext(&there);
    there.uc_stack.ss_sp = stack.data();
    there.uc_stack.ss_size = stack.size();
    there.uc_link = &here;
    makecontext(&there, entry, 0);
    swapcontext(&here, &there);
    const auto touched = std::find_if(stack.begin(), stack.end(), [](uint8_t byte) { return byte != kPaint; });
    return size_t(stack.end() - touched);
}

} // namespace

// What an empty call uses, entering and leaving the painted stack, is taken off.
size_t stack_used(Schedule schedule, const File &file) {
    call = {schedule, &file, std::vector<uint8_t>(8192)};
    run(); // so that a first call's work, as binding memset, is not counted
    const size_t empty = used_by(nothing);
    return used_by(run) - empty;
}
