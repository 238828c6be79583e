/* The extension tags of a block from C: prints each tag's type and contents, and the answer that ends them; then the firmware's version.
 *
 *     gcc -std=c99 example_tags.c $(pkg-config --cflags --libs vantorel) -o example_tags
 *
 * In the repository, after `tools/target --host`:
 *
 *     gcc -std=c99 -Iinclude include/example_tags.c target/staticlib/libvantorel.a -o example_tags
 */
#include "vantorel.h"

#include <stdio.h>
#include <string.h>

/* The tags that the UF2 text prints: version 0.1.2, for a device named ACME Toaster mk3. */
static const uint8_t tags[] = {
    0x09, 0xbc, 0xc7, 0x9f, 0x30, 0x2e, 0x31, 0x2e, 0x32, 0x00, 0x00, 0x00,                                                 /* version */
    0x14, 0x9d, 0x9d, 0x65, 0x41, 0x43, 0x4d, 0x45, 0x20, 0x54, 0x6f, 0x61, 0x73, 0x74, 0x65, 0x72, 0x20, 0x6d, 0x6b, 0x33, /* device */
    0x00, 0x00, 0x00, 0x00,
};

static void print(const struct uf2_tag_found *tag) {
    printf("%06lx %.*s\n", (unsigned long)tag->type, (int)tag->length, (const char *)tag->contents);
}

int main(void) {
    uint8_t block[UF2_ARRIVAL_SIZE] = {0};
    struct uf2_tag_reader reader;
    struct uf2_tag_found tag;
    enum uf2_tag_answer answer;

    uf2_put32(block, 0x0A324655u);
    uf2_put32(block + 4, 0x9E5D5157u);
    uf2_put32(block + 8, 0xa000u);
    uf2_put32(block + 16, 256u);
    memcpy(block + 32 + 256, tags, sizeof tags);
    uf2_put32(block + 508, 0x0AB16F30u);

    reader = uf2_tags_of(block, sizeof block);
    while ((answer = uf2_next_tag(&reader, &tag)) == UF2_TAG_FOUND)
        print(&tag);
    printf("%lu\n", (unsigned long)answer);

    if (uf2_find_tag(block, sizeof block, UF2_TAG_TYPE_VERSION, &tag) != UF2_TAG_FOUND)
        return 1;
    print(&tag);
    return answer == UF2_TAG_END ? 0 : 1;
}
