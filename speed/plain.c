/* What the listing is held beside: bytes in hex, with no session, no lines and no proof. */
void plain_hex(const unsigned char *bytes, unsigned long n, char *out) {
    static const char digits[16] = "0123456789abcdef";
    for (unsigned long i = 0; i < n; i++) {
        out[2 * i] = digits[bytes[i] >> 4];
        out[2 * i + 1] = digits[bytes[i] & 15];
    }
}
