#include <gcrypt.h>

void gcrypt_160(const unsigned char *message, size_t n, unsigned char *out) {
    static int ready;
    if (!ready) {
        gcry_check_version(NULL);
        gcry_control(GCRYCTL_DISABLE_SECMEM, 0);
        gcry_control(GCRYCTL_INITIALIZATION_FINISHED, 0);
        ready = 1;
    }
    gcry_md_hash_buffer(GCRY_MD_RMD160, out, message, n);
}
