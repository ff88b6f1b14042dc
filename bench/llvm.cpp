// Offload binaries laid end to end, read by LLVM's own library as its linker wrapper does it, without the copy that it makes of each.
#include "llvm/Object/OffloadBinary.h"

#include <cstdint>

using namespace llvm;
using object::OffloadBinary;

// How many binaries there are, or 0 where one is refused.
extern "C" uint64_t llvm_read_binaries(const uint8_t *bytes, size_t length) {
    StringRef left(reinterpret_cast<const char *>(bytes), length);
    uint64_t count = 0;
    while (!left.empty()) {
        Expected<std::unique_ptr<OffloadBinary>> binary = OffloadBinary::create(MemoryBufferRef(left, ""));
        if (!binary) {
            consumeError(binary.takeError());
            return 0;
        }
        left = left.drop_front((*binary)->getSize());
        count++;
    }
    return count;
}
