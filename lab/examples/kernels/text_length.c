//# The length of a text, by loads that stop at a page's end
// A text ends with a zero byte at an unknown place: a load of 32 bytes may reach a page that isn't mapped. vle8ff.v
// loads the bytes before it, and vl is their number.
//> step 250
//> out
#include "vecmon.h"
#include <riscv_vector.h>

#define PAGE 4096

static _Alignas(PAGE) uint8_t page[PAGE];
static const char text[] = "a text of more than thirty-two bytes that ends where its page does";

static size_t text_length(const uint8_t *bytes)
{
    for (size_t length = 0, loaded;; length += loaded) {
        vuint8m1_t next = __riscv_vle8ff_v_u8m1(bytes + length, &loaded, __riscv_vsetvlmax_e8m1());
        long first = __riscv_vfirst_m_b8(__riscv_vmseq_vx_u8m1_b8(next, 0, loaded), loaded);
        if (first >= 0)
            return length + (size_t)first;
    }
}

int main(void)
{
    uint8_t *last = page + PAGE - sizeof text;
    memcpy(last, text, sizeof text);
    size_t length = text_length(last);
    put(&length, sizeof length);
    return 0;
}
