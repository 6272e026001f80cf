// The MD5 of a URL's key, for the plain programs beside it. It is for little-endian machines. A program that defines
// EACH_ROUND as a pragma that unrolls a loop has a faster one.
#include <stddef.h>
#include <stdint.h>
#include <string.h>

#ifndef EACH_ROUND
#define EACH_ROUND
#endif

static const uint32_t SINES[64] = {
    0xd76aa478, 0xe8c7b756, 0x242070db, 0xc1bdceee, 0xf57c0faf, 0x4787c62a, 0xa8304613, 0xfd469501,
    0x698098d8, 0x8b44f7af, 0xffff5bb1, 0x895cd7be, 0x6b901122, 0xfd987193, 0xa679438e, 0x49b40821,
    0xf61e2562, 0xc040b340, 0x265e5a51, 0xe9b6c7aa, 0xd62f105d, 0x02441453, 0xd8a1e681, 0xe7d3fbc8,
    0x21e1cde6, 0xc33707d6, 0xf4d50d87, 0x455a14ed, 0xa9e3e905, 0xfcefa3f8, 0x676f02d9, 0x8d2a4c8a,
    0xfffa3942, 0x8771f681, 0x6d9d6122, 0xfde5380c, 0xa4beea44, 0x4bdecfa9, 0xf6bb4b60, 0xbebfbc70,
    0x289b7ec6, 0xeaa127fa, 0xd4ef3085, 0x04881d05, 0xd9d4d039, 0xe6db99e5, 0x1fa27cf8, 0xc4ac5665,
    0xf4292244, 0x432aff97, 0xab9423a7, 0xfc93a039, 0x655b59c3, 0x8f0ccc92, 0xffeff47d, 0x85845dd1,
    0x6fa87e4f, 0xfe2ce6e0, 0xa3014314, 0x4e0811a1, 0xf7537e82, 0xbd3af235, 0x2ad7d2bb, 0xeb86d391,
};
static const uint8_t TURNS[16] = {7, 12, 17, 22, 5, 9, 14, 20, 4, 11, 16, 23, 6, 10, 15, 21};

static void block(uint32_t sum[4], const uint8_t *bytes) {
    uint32_t words[16], a = sum[0], b = sum[1], c = sum[2], d = sum[3];
    memcpy(words, bytes, 64);
    EACH_ROUND for (int i = 0; i < 64; i++) {
        uint32_t mixed;
        int word;
        if (i < 16) { mixed = (b & c) | (~b & d); word = i; }
        else if (i < 32) { mixed = (d & b) | (~d & c); word = (5 * i + 1) & 15; }
        else if (i < 48) { mixed = b ^ c ^ d; word = (3 * i + 5) & 15; }
        else { mixed = c ^ (b | ~d); word = (7 * i) & 15; }
        uint32_t turned = a + mixed + SINES[i] + words[word];
        int by = TURNS[(i / 16) * 4 + (i & 3)];
        a = d; d = c; c = b;
        b += turned << by | turned >> (32 - by);
    }
    sum[0] += a; sum[1] += b; sum[2] += c; sum[3] += d;
}

// The MD5 of a byte 1 and the URL.
static void key_of(uint32_t sum[4], const uint8_t *url, size_t length) {
    uint8_t text[2112] = {1};
    size_t size = length + 1, end = (size + 8) / 64 * 64 + 64;
    uint64_t bits = size * 8;
    memcpy(text + 1, url, length);
    memset(text + size, 0, end - size);
    text[size] = 0x80;
    memcpy(text + end - 8, &bits, 8);
    memcpy(sum, (uint32_t[]){0x67452301, 0xefcdab89, 0x98badcfe, 0x10325476}, 16);
    for (size_t at = 0; at < end; at += 64) block(sum, text + at);
}
