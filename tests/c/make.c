/* A file made of an image of two pages, as a tool on a host calls it: the answers, the fields of each block, the regions that blocks
 * name, and a digest. */
#include <stdio.h>
#include <string.h>

#include "uf2_tools.h"

static uint32_t get32(const uint8_t *at) {
    return (uint32_t)at[0] | (uint32_t)at[1] << 8 | (uint32_t)at[2] << 16 | (uint32_t)at[3] << 24;
}

int main(void) {
    static uint8_t image[2 * UF2_MAKE_PAGE_SIZE], file[2 * UF2_MAKE_BLOCK_SIZE + 1], block[UF2_MAKE_BLOCK_SIZE],
        sector[4096];
    uint8_t digest[UF2_MD5_SIZE];
    size_t k, i;
    for (i = 0; i < sizeof image; i++) {
        image[i] = (uint8_t)(i * 7);
    }
    file[sizeof file - 1] = 0xA5;
    printf("%u\n", (unsigned)uf2_make(image, 0, 0xe48bff59u, 0x10000000u, file, sizeof file));
    printf("%u\n", (unsigned)uf2_make(image, sizeof image, 0xe48bff59u, 0x10000080u, file, sizeof file));
    printf("%u\n", (unsigned)uf2_make(image, sizeof image, 0xe48bff59u, 0x11ffff00u, file, sizeof file));
    printf("%u\n", (unsigned)uf2_make(image, sizeof image, 0xe48bff59u, 0x10000000u, file, UF2_MAKE_OUTPUT_SIZE(sizeof image) - 1));
    printf("%u\n", (unsigned)uf2_make(image, sizeof image, 0xe48bff59u, 0x10000000u, file, sizeof file));
    for (k = 0; k < 2; k++) {
        const uint8_t *b = file + k * UF2_MAKE_BLOCK_SIZE;
        for (i = 0; i < 32; i += 4) {
            printf("%08x ", (unsigned)get32(b + i));
        }
        printf("%08x\n", (unsigned)get32(b + 508));
        uf2_make_block(0x10000000u + 256 * (uint32_t)k, (uint32_t)k, 2, 0xe48bff59u, image + k * UF2_MAKE_PAGE_SIZE, UF2_MAKE_PAGE_SIZE,
                       block, sizeof block);
        printf("%s\n", memcmp(block, b, sizeof block) == 0 ? "the same by itself" : "another by itself");
    }
    printf("%u\n", (unsigned)uf2_make_regions(image, sizeof image, 0xe48bff59u, 0x10000080u, file, sizeof file));
    printf("%u\n", (unsigned)uf2_make_regions(image, sizeof image, 0xe48bff59u, 0x10001f00u, file, sizeof file));
    for (k = 0; k < 2; k++) {
        const uint8_t *b = file + k * UF2_MAKE_BLOCK_SIZE;
        printf("%08x %08x %08x %08x\n", (unsigned)get32(b + 8), (unsigned)get32(b + 12), (unsigned)get32(b + 484), (unsigned)get32(b + 488));
        memset(sector, 0xff, sizeof sector);
        memcpy(sector + (k == 0 ? sizeof sector - UF2_MAKE_PAGE_SIZE : 0), image + k * UF2_MAKE_PAGE_SIZE, UF2_MAKE_PAGE_SIZE);
        uf2_md5(sector, sizeof sector, digest, sizeof digest);
        printf("%s\n", memcmp(digest, b + 492, sizeof digest) == 0 ? "the digest of its sector" : "another digest");
    }
    printf("%02x\n", file[sizeof file - 1]);
    uf2_md5((const uint8_t *)"abc", 3, digest, sizeof digest);
    for (i = 0; i < sizeof digest; i++) {
        printf("%02x", digest[i]);
    }
    printf("\n");
    return 0;
}
