#define CRYPTOPP_ENABLE_NAMESPACE_WEAK 1
#include <cryptopp/ripemd.h>

template <class Hash> static void digest(const unsigned char *message, size_t n, unsigned char *out) { Hash().CalculateDigest(out, message, n); }

extern "C" void cryptopp(size_t width, const unsigned char *message, size_t n, unsigned char *out) {
    switch (width) {
    case 128: return digest<CryptoPP::RIPEMD128>(message, n, out);
    case 160: return digest<CryptoPP::RIPEMD160>(message, n, out);
    case 256: return digest<CryptoPP::RIPEMD256>(message, n, out);
    default: return digest<CryptoPP::RIPEMD320>(message, n, out);
    }
}
