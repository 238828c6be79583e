/* Settings kept in the board, for C: every function is proved to do what crates/storeapi/specs says, for every input.
 *
 * `tools/target --host` writes target/staticlib/libstoreapi.a, a library of its own: it calls nothing but memcpy, memmove and memset, allocates nothing
 * and keeps nothing between calls. It is linked beside libcapi.a or without it. What uf2_receiver.h says of slices, pointers and names,
 * of settings as bytes and of UF2_STACK_SIZE holds here too.
 *
 *     uint8_t settings[UF2_SETTINGS_SIZE], store[UF2_STORE_MAX_SIZE];
 *     ... store_len bytes of the board's store are read to `store` ...
 *     if (uf2_store_read(store, store_len, flash_len, settings, sizeof settings) != UF2_STORE_DONE) ... the board has no settings ...
 *
 * A store is 2 bytes, and 22 for each used entry. Good settings have one store, and settings that differ in a used entry, a used user family, a
 * linked index, a switch or the current architecture have another. Settings that are read have zeros in unused entries, unused user families and
 * the index of an entry that is not linked; each flag is written as 0 or 1, and so is the byte of the current architecture. */
#ifndef UF2_STORE_H
#define UF2_STORE_H

#include "uf2_receiver.h"

#ifdef __cplusplus
extern "C" {
#endif

/* The bytes of a store of settings with so many used entries. */
#define UF2_STORE_SIZE(count) (2 + 22 * (count))
#define UF2_STORE_MAX_SIZE UF2_STORE_SIZE(UF2_MAX_ENTRIES)

/* ---- Answers. They are asked in the order that each call says, and the first that fits is given. */
enum uf2_store_answer {
    UF2_STORE_DONE = 0,
    UF2_STORE_BAD_BUFFERS = 1,  /* the flash's length is wrong, or the settings to be read are not UF2_SETTINGS_SIZE bytes */
    UF2_STORE_BAD_SETTINGS = 2, /* the settings are not good for this flash */
    UF2_STORE_BAD_VERSION = 40, /* the store's version is neither 1 nor 2 */
    UF2_STORE_BAD_LENGTH = 41,  /* the store has a wrong length, or the buffer for it is too short */
    UF2_STORE_BAD_BITS = 42     /* the store has stray bits, or numbers that no store has */
};

/* The settings of a store, for a flash of flash_len bytes: UF2_STORE_DONE, with the settings in `settings`; or a refusal, with `settings` unchanged.
 * Asked in this order: 1; 41 under 2 bytes; 40; 42 a count over UF2_MAX_ENTRIES; 41 not UF2_STORE_SIZE(count); 42 any other; 2. */
uint32_t uf2_store_read(const uint8_t *store, uf2_len store_len, uf2_len flash_len, uint8_t *settings, uf2_len settings_len);

/* Writes the store of settings that are good for a flash of flash_len bytes, UF2_STORE_SIZE(count) bytes at the start of `store`; the bytes after
 * them stay. A refusal writes nothing. Asked in this order: 1; 2; 41 where `store` is too short. */
uint32_t uf2_store_write(const uint8_t *settings, uf2_len settings_len, uf2_len flash_len, uint8_t *store, uf2_len store_len);

#ifdef __cplusplus
}
#endif

#endif
