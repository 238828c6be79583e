/* The extension tags of a UF2 block for C: every function is proved to do what crates/tagsapi/specs says, uf2_tag_first what crates/uf2_tags/specs
 * does, for every input.
 *
 * `tools/target --host` writes target/staticlib/libtagsapi.a, a library of its own: it calls nothing (on RV32IMAC memcpy and memset, and
 * nothing else), allocates nothing and keeps nothing between calls. It is linked beside the libraries of uf2_receiver.h or without them. What
 * uf2_receiver.h says of slices, pointers and names holds here too.
 *
 *     uint8_t tag[UF2_TAG_SIZE];
 *     uf2_len place = uf2_tag_first(block, UF2_ARRIVAL_SIZE);
 *     while (uf2_tag(block, UF2_ARRIVAL_SIZE, place, tag, sizeof tag) == UF2_TAG_FOUND) {
 *         ... uf2_get32(tag + UF2_TAG_TYPE_AT), and the contents at block + uf2_get32(tag + UF2_TAG_START_AT) ...
 *         place = uf2_get32(tag + UF2_TAG_NEXT_AT);
 *     }
 *
 * The loop ends after at most 119 tags: at UF2_TAG_END, or at a refusal. Both are repeated at the same place. */
#ifndef UF2_TAGS_H
#define UF2_TAGS_H

#include "uf2_receiver.h"

#ifdef __cplusplus
extern "C" {
#endif

/* ---- A tag: written by uf2_tag and uf2_tag_find. Places are offsets in the block. */
#define UF2_TAG_SIZE 16
#define UF2_TAG_TYPE_AT 0 /* 32 bits each */
#define UF2_TAG_START_AT 4
#define UF2_TAG_LENGTH_AT 8
#define UF2_TAG_NEXT_AT 12

/* ---- Types of tags */
#define UF2_TAG_TYPE_VERSION 0x9fc7bcu     /* of the firmware: text, semver */
#define UF2_TAG_TYPE_DEVICE 0x650d9du      /* what it is for: text */
#define UF2_TAG_TYPE_PAGE_SIZE 0x0be9f7u   /* of the device: a number of 32 bits */
#define UF2_TAG_TYPE_SHA2 0xb46db0u        /* of the firmware */
#define UF2_TAG_TYPE_DEVICE_TYPE 0xc8a729u /* a number of 32 or 64 bits */

/* ---- Answers, in the order in which they are asked. */
enum uf2_tag_answer {
    UF2_TAG_FOUND = 0,
    UF2_TAG_BAD_LENGTH = 1,   /* the block is not 512 bytes, or the tag's slice not UF2_TAG_SIZE */
    UF2_TAG_NOT_BLOCK = 4,    /* no UF2 block: a magic number differs */
    UF2_TAG_END = 60,         /* flag 0x8000 is clear, or the last tag was read */
    UF2_TAG_BAD_PAYLOAD = 61, /* the payload's size is over 476 or no multiple of 4 */
    UF2_TAG_BAD_PLACE = 3,    /* the place lies before the payload's end, or is no multiple of 4 */
    UF2_TAG_NO_ROOM = 65,     /* under 4 bytes are left where a tag should start */
    UF2_TAG_SHORT = 62,       /* a tag with a size of 1 to 3 */
    UF2_TAG_TYPED_END = 63,   /* a tag with a size of 0 and a type */
    UF2_TAG_PAST_ROOM = 64    /* a tag that runs past the data, or into the checksum of flag 0x4000 */
};

/* The place of a block's first tag: 32 and the payload's size as the block says it, whether there is a tag or not, and 32 of under 20 bytes. What
 * stands there uf2_tag says: UF2_TAG_END where the block has no tags. */
uf2_len uf2_tag_first(const uint8_t *block, uf2_len block_len);

/* What stands at a place of a block: UF2_TAG_FOUND, with the tag in `tag`; or any other answer, with `tag` unchanged. */
uint32_t uf2_tag(const uint8_t *block, uf2_len block_len, uf2_len place, uint8_t *tag, uf2_len tag_len);

/* The first tag of a type: UF2_TAG_FOUND, with the tag in `tag`; or the end or the refusal before any, with `tag` unchanged. */
uint32_t uf2_tag_find(const uint8_t *block, uf2_len block_len, uint32_t type, uint8_t *tag, uf2_len tag_len);

#ifdef __cplusplus
}
#endif

#endif
