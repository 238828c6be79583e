/* Does what a block holds stand in the memory? Proved to do what crates/standapi/specs says, for every input.
 *
 * Built for the machines that uf2_receiver.h names: `tools/target --host` writes target/staticlib/libstandapi.a, which links beside the
 * others. It calls nothing but memcpy, memmove and memset, allocates nothing and keeps nothing between calls. What uf2_receiver.h says of slices and of
 * UF2_STACK_SIZE holds here too.
 *
 * Why one asks: UF2_ANSWER_COMPLETED says that a block of every number was accepted, and not what the flash holds. A receiver knows a file by
 * family, total and kind. So another build of as many blocks, sent after the first was stopped half way, is answered UF2_ANSWER_COMPLETED over a
 * mixture of the two. So is a file over a transfer that was kept while its plan was not performed, and one whose driver said that it had
 * programmed a page and had not. Send the file once more to this call, and say "complete" only where every block is UF2_STANDS. For a valid file
 * every payload is then in its memory, whatever happened before (crates/demand/specs). It says nothing of the bytes beside the payloads. */
#ifndef UF2_STANDS_H
#define UF2_STANDS_H

#include "uf2_len.h"

#ifdef __cplusplus
extern "C" {
#endif

#define UF2_STANDS 95u  /* the 256 bytes of the payload stand where the block's address says; a comment, which is not stored, always does */
#define UF2_DIFFERS 96u /* at least one byte does not */

/* UF2_STANDS, UF2_DIFFERS or a refusal: UF2_ANSWER_BAD_BUFFERS (a length of arrival, flash or RAM), UF2_ANSWER_BAD_SETTINGS, or one of
 * UF2_ANSWER_NOT_BLOCK to UF2_ANSWER_BAD_ADDRESS, as uf2_look answers with a fresh transfer. No transfer and no map is lent, so that
 * UF2_ANSWER_BAD_STATE never comes, and every comment is of kind flash. Nothing is written. Flag 0x4000 changes nothing: the payload is
 * compared, and no digest. */
uint32_t uf2_stands(const uint8_t *settings, uf2_len settings_len, const uint8_t *arrival, uf2_len arrival_len, const uint8_t *flash,
                    uf2_len flash_len, const uint8_t *main_ram, uf2_len main_ram_len, const uint8_t *xip_ram, uf2_len xip_ram_len);

#ifdef __cplusplus
}
#endif

#endif
