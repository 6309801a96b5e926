#include <nettle/ripemd160.h>

void nettle_160(const unsigned char *message, size_t n, unsigned char *out) {
    struct ripemd160_ctx state;
    ripemd160_init(&state);
    ripemd160_update(&state, n, message);
    ripemd160_digest(&state, 20, out);
}
