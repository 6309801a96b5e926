#define OPENSSL_SUPPRESS_DEPRECATED
#include <openssl/ripemd.h>

void openssl_160(const unsigned char *message, size_t n, unsigned char *out) { RIPEMD160(message, n, out); }
