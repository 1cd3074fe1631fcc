/* Zrnkobal for C: both ends of AT-BUP as plain functions over numbers and bytes.
 *
 * Every call takes any bytes, sizes and order of calls, and comes back. Nothing is allocated or kept between calls: what a session or
 * a reader knows stands in bytes that the caller keeps (the layouts are below) and hands in again.
 *
 * What the caller owes, as nothing can check it here: every pointer is valid for the length beside it, or for its one number, and is
 * not NULL even where that length is 0; no two buffers of a call overlap; no length is 2^63 or more.
 *
 * Numbers that come back through a pointer are always written: 0 where the answer has none. */
#ifndef ZRNKOBAL_H
#define ZRNKOBAL_H

#include <stdbool.h>
#include <stddef.h>
#include <stdint.h>

#ifdef __cplusplus
extern "C" {
#endif

/* ---- Answers. A call answers one of these, or a refusal number from 1 to 22 (zrn_words has its words). */

#define ZRN_NOTHING 0   /* nothing to send, nothing heard; an opening that was not refused */
#define ZRN_WRITTEN 100 /* count bytes stand at the front of the output; every byte behind them is as lent */
#define ZRN_FRAME 101   /* the byte completed a frame */
#define ZRN_DROPPED 102 /* the byte ended a frame that is no good */
#define ZRN_DONE 103    /* the module has the image and has restarted: the load is done */
#define ZRN_FOUND 104   /* the block is good */
#define ZRN_PAST 105    /* the file is whole and has fewer blocks */
#define ZRN_UNKNOWN 106 /* a number that stands for no rate, or for no choice of 0 or 1; nothing is sent */

/* ---- States. A record is a row of numbers of four bytes each, low byte first; a number of eight bytes takes two, the low half
 * first. A buffer may be longer than its record: the bytes behind it are left alone. Every number keeps its place: whatever a later
 * version adds to a record comes last and makes it longer, so take its size from the name below, never as a number. */

/* A reader: count, opened (0 or 1), pending escape (0 or 1), then the store of 1,035 bytes. Any other count than 0 to 1,035 or any
 * other flag is taken as a fresh reader. */
#define ZRN_READER_BYTES 1047
#define ZRN_READER_STORE 12

/* A module's session: flash length at the opening (8 bytes), idle ms, phase, type, length, size, number, written.
 * Phase: 0 closed, 1 ready, 2 begun (parameters accepted), 3 loading, 4 done. Type, length: from begun on. Size: from loading on.
 * Number of the packet just accepted: loading only. Written, in bytes: from loading on. What a phase does not have is 0.
 * Bytes that are the record of no session, or of one that could not arise, are taken as a closed session over the flash length that
 * stands in them (a byte past their end counts as 0), and are left as they are. */
#define ZRN_MODULE_BYTES 36

/* A host's session: image length at the opening (8 bytes), wish (8 bytes), stage, type, first rate, rate, start, same, size, number,
 * waited ms, repeats.
 * Stage: 0 ended, 1 awaits the answer to the start text, 2 to the rate, 3 to the parameters, 4 to a packet, 5 the notice, 6 the answer
 * to the restart. Wish, type, first rate, start, same, waited, repeats: from stage 1 on. Rate: the one asked for at stage 2, the
 * agreed one from 3 on. Size: from 4 on. Number of the packet under way: 4 only. What a stage does not have is 0. A session that ended
 * with 21 or 22 once a rate was agreed keeps type and rate: its restart frame goes out at that rate (zrn_host_line_rate).
 * Bytes that are the record of no session, or of one that could not arise, are taken as an ended session over the image length that
 * stands in them (a byte past their end counts as 0), and are left as they are. */
#define ZRN_HOST_BYTES 56

/* A caller, which is a host on a line: a reader; how much of the answer to the start text has been heard (4 bytes), messages resent and
 * frames dropped since the opening (8 bytes each); a host's session. What stands there for no session is taken as an ended one over the
 * image length in it, for no reader as a fresh one, and the next call writes that down. */
#define ZRN_CALLER_SESSION (ZRN_READER_BYTES + 20)
#define ZRN_CALLER_BYTES (ZRN_CALLER_SESSION + ZRN_HOST_BYTES)

/* A post, which is a module on a line that waits for the start text: a reader; how much of the start text has been heard (4 bytes),
 * frames dropped (8 bytes); a module's session. Read as a caller is, a session that stands for none as a closed one over the flash length
 * in it; the record of one that could not arise is left as it is and takes no events. Without a session that does the post waits. */
#define ZRN_POST_SESSION (ZRN_READER_BYTES + 12)
#define ZRN_POST_BYTES (ZRN_POST_SESSION + ZRN_MODULE_BYTES)

/* Rates by number: 1 is 9600, 2 is 19200, 3 is 38400, 4 is 57600, 5 is 115200. */

/* ---- Words */

/* Puts the words of a refusal number at the front of the output, as much of them as fits, and answers how many bytes that is. */
size_t zrn_words(uint8_t number, uint8_t *out, size_t out_length);

/* ---- The wire */

/* Writes a frame. ZRN_WRITTEN and its count; 1 for a payload over 1,030; 2 where the output is shorter than the frame needs. */
uint8_t zrn_frame_write(uint8_t command, const uint8_t *payload, size_t payload_length, uint8_t *out, size_t out_length, size_t *count);

/* Whether these bytes are the content of a frame that a reader hands out. */
bool zrn_frame_is_content(const uint8_t *content, size_t content_length);

/* The escape: whether a byte may follow DC (CB, CC and CE may), and the byte of content that it then stands for: the same with bit 4
   inverted, so DB, DC or DE. For a byte that may not follow the second call answers DE. */
bool zrn_escape_may_follow(uint8_t byte);
uint8_t zrn_escape_original(uint8_t byte);

/* ---- The reader */

/* Makes a fresh reader. ZRN_NOTHING; 2 where the state is shorter than ZRN_READER_BYTES. */
uint8_t zrn_reader_new(uint8_t *state, size_t state_length);

/* Takes one byte. ZRN_NOTHING, ZRN_FRAME with its command and payload count, or ZRN_DROPPED; 2 for a short state. */
uint8_t zrn_reader_step(uint8_t *state, size_t state_length, uint8_t byte, uint8_t *command, size_t *count);

/* The payload of the frame just handed out: count bytes from *place on in the state. Answers how many of them the state has. */
size_t zrn_reader_payload(const uint8_t *state, size_t state_length, size_t count, size_t *place);

/* ---- UBF files */

/* Whether there is such a type, and the first address of its images in the flash. */
bool zrn_type_address(uint16_t type, uint32_t *address);

/* Reads the block at the front of some bytes. ZRN_FOUND and its numbers, or a refusal from 4 to 10. */
uint8_t zrn_ubf_read(const uint8_t *block, size_t block_length, uint16_t *type, uint32_t *length, uint32_t *start, uint32_t *check);

/* The n-th block of a file, counted from 0. ZRN_FOUND, its numbers and its place in the file; ZRN_PAST and how many blocks the file has;
 * or the first faulty block's refusal number, its place, and how many good blocks stand before it. */
uint8_t zrn_ubf_block_at(const uint8_t *file, size_t file_length, size_t n, uint16_t *type, uint32_t *length, uint32_t *start,
                         uint32_t *check, size_t *place, size_t *count);

/* How many bytes a block with this start and image length takes. */
size_t zrn_ubf_size(uint32_t start, uint32_t length);

/* Where image and texts stand in the bytes of a block: *place, and as the answer how many of their bytes are there. The texts come with
 * the zeros that fill their field. */
size_t zrn_ubf_image(const uint8_t *block, size_t block_length, uint32_t start, uint32_t length, size_t *place);
size_t zrn_ubf_model(const uint8_t *block, size_t block_length, size_t *place);
size_t zrn_ubf_version(const uint8_t *block, size_t block_length, size_t *place);
size_t zrn_ubf_file_name(const uint8_t *block, size_t block_length, size_t *place);
size_t zrn_ubf_date(const uint8_t *block, size_t block_length, size_t *place);

/* Writes a block: ZRN_WRITTEN and its count, or a refusal: 6, 8, 7, 9, then 2. The texts are given without their zeros. */
uint8_t zrn_ubf_write(uint16_t type, uint32_t address, uint32_t start, const uint8_t *model, size_t model_length, const uint8_t *version,
                      size_t version_length, const uint8_t *name, size_t name_length, const uint8_t *date, size_t date_length,
                      const uint8_t *image, size_t image_length, uint8_t *out, size_t out_length, size_t *count);

/* ---- The module */

/* Opens a session over a flash. ZRN_NOTHING; 3 and a closed session; 2, and nothing is written, where the state is shorter than
 * ZRN_MODULE_BYTES. */
uint8_t zrn_module_open(uint8_t *state, size_t state_length, const uint8_t *flash, size_t flash_length);

/* Whether the session takes events. */
bool zrn_module_is_open(const uint8_t *state, size_t state_length);

/* A frame has arrived. ZRN_WRITTEN and the count of the reply, or ZRN_NOTHING; 2 for a reply buffer under 64 bytes; 3 for a flash of
 * another length than at the opening. A refusal leaves state, flash and reply as lent. */
uint8_t zrn_module_frame(uint8_t *state, size_t state_length, uint8_t command, const uint8_t *payload, size_t payload_length,
                         uint8_t *flash, size_t flash_length, uint8_t *reply, size_t reply_length, size_t *count);

/* Milliseconds have passed. ZRN_NOTHING, or 2 or 3 as above. */
uint8_t zrn_module_wait(uint8_t *state, size_t state_length, uint32_t ms, uint8_t *flash, size_t flash_length, uint8_t *reply,
                        size_t reply_length, size_t *count);

/* ---- The host */

/* Opens a session that loads one block: type, image, first rate (1 to 5), piece wish, start (1: the start text is sent), same (1: go
 * on at the same version, 0: stop). ZRN_WRITTEN and the count of the first text or frame in the output; 6, 8 or 2 and an ended session;
 * ZRN_UNKNOWN and an ended session for another rate, start or same. Where the state is shorter than ZRN_HOST_BYTES the answer is 2
 * before all else, and nothing is written. */
uint8_t zrn_host_open(uint8_t *state, size_t state_length, uint16_t type, const uint8_t *image, size_t image_length, uint8_t first,
                      size_t wish, uint8_t start, uint8_t same, uint8_t *out, size_t out_length, size_t *count);

/* A frame has arrived, a line of text with its CR LF, or milliseconds have passed. ZRN_NOTHING; ZRN_WRITTEN and the count of what is to
 * be sent; ZRN_DONE; 2 or 3, which leave the session as it was; 11 or 20, which end it; 21 or 22, which end it too: *passed is the
 * module's ACK or State, and count bytes of the restart frame are to be sent. */
uint8_t zrn_host_frame(uint8_t *state, size_t state_length, uint8_t command, const uint8_t *payload, size_t payload_length,
                       const uint8_t *image, size_t image_length, uint8_t *out, size_t out_length, size_t *count, uint8_t *passed);
uint8_t zrn_host_line(uint8_t *state, size_t state_length, const uint8_t *line, size_t line_length, const uint8_t *image,
                      size_t image_length, uint8_t *out, size_t out_length, size_t *count, uint8_t *passed);
uint8_t zrn_host_wait(uint8_t *state, size_t state_length, uint32_t ms, const uint8_t *image, size_t image_length, uint8_t *out,
                      size_t out_length, size_t *count, uint8_t *passed);

/* Whether these bytes are the record of a session that could arise; any others are taken as an ended session. */
bool zrn_host_can_arise(const uint8_t *state, size_t state_length);

/* Packets accepted, as the answer, and packets in all; both 0 before the piece size is set and once the session has ended. */
size_t zrn_host_progress(const uint8_t *state, size_t state_length, size_t *total);

/* The rate that the line should have now, 1 to 5; 0 as it was: at it what the last call wrote goes out, the restart frame of 21 and 22
 * too, and the answer is heard. A module that agrees to a rate has it from then on, and its answer may be lost: so of the repeats of a
 * request for a rate the first and the third go out at the rate asked for. */
uint8_t zrn_host_line_rate(const uint8_t *state, size_t state_length);

/* How often the message under way was resent. */
uint32_t zrn_host_resent(const uint8_t *state, size_t state_length);

/* Writes a restart frame, for a load that is broken off. ZRN_WRITTEN and its count, or 2. */
uint8_t zrn_restart_write(uint8_t *out, size_t out_length, size_t *count);

/* ---- A caller: the host fed bytes as they come from a line */

/* Opens a session as zrn_host_open does, with a fresh reader and nothing counted. Where the state is shorter than ZRN_CALLER_BYTES the
 * answer is 2 before all else, and nothing is written. */
uint8_t zrn_caller_open(uint8_t *state, size_t state_length, uint16_t type, const uint8_t *image, size_t image_length, uint8_t first,
                        size_t wish, uint8_t start, uint8_t same, uint8_t *out, size_t out_length, size_t *count);

/* A byte has arrived, or milliseconds have passed. Answers as zrn_host_frame does; 2 for a short state, which is left as lent. */
uint8_t zrn_caller_hear(uint8_t *state, size_t state_length, uint8_t byte, const uint8_t *image, size_t image_length, uint8_t *out,
                        size_t out_length, size_t *count, uint8_t *passed);
uint8_t zrn_caller_wait(uint8_t *state, size_t state_length, uint32_t ms, const uint8_t *image, size_t image_length, uint8_t *out,
                        size_t out_length, size_t *count, uint8_t *passed);

/* What a screen needs. Answers the stage, 0 to 6 (6: a notice of State 0 has been taken, the image is in the flash); the rate of
 * zrn_host_line_rate, the packets of zrn_host_progress, and what was resent and dropped since the opening. */
uint8_t zrn_caller_view(const uint8_t *state, size_t state_length, uint8_t *rate, size_t *accepted, size_t *total, size_t *resent,
                        size_t *dropped);

/* The wish that suits a line of so many bits a second: the largest piece, 1 to 1,024 bytes, whose packet, nothing escaped, leaves in half the
 * time for an answer. Where not even one byte does: 1. */
size_t zrn_piece_for(uint32_t baud);

/* ---- A post: the module fed bytes as they come from a line. It waits for the start text, answers it and opens a session; after a
 * restart, or when its idle sum has closed the session, it waits again. */

/* Makes a post that waits; or one with a session open over the flash, if one can be opened there. ZRN_NOTHING; 2, and nothing is written,
 * where the state is shorter than ZRN_POST_BYTES. */
uint8_t zrn_post_new(uint8_t *state, size_t state_length);
uint8_t zrn_post_open(uint8_t *state, size_t state_length, const uint8_t *flash, size_t flash_length);

/* A byte has arrived, or milliseconds have passed. Answers as zrn_module_frame does; 2 for a short state, which is left as lent. The start
 * text is answered where the reply buffer has 14 bytes for it; else nothing happens at all. Flash and reply buffer are looked at only where
 * a byte completes a frame or the text, or time passes for an open session. */
uint8_t zrn_post_hear(uint8_t *state, size_t state_length, uint8_t byte, uint8_t *flash, size_t flash_length, uint8_t *reply,
                      size_t reply_length, size_t *count);
uint8_t zrn_post_wait(uint8_t *state, size_t state_length, uint32_t ms, uint8_t *flash, size_t flash_length, uint8_t *reply,
                      size_t reply_length, size_t *count);

/* What a screen, or a file of the flash, needs. Answers 0 while it waits, 1 with a session that is ready, 2 with parameters accepted, 3
 * while loading, 4 when done; from 2 on the type, the first address of its range, its length, and how many bytes of it are written; what
 * was dropped; and whether the session was closed by its idle sum. */
uint8_t zrn_post_view(const uint8_t *state, size_t state_length, uint16_t *type, size_t *base, size_t *length, size_t *written,
                      size_t *dropped, bool *idle);

/* The rate that these bytes, just the reply of a post or a module, agree to: the module has it once they have left. 0 for any others. */
uint8_t zrn_rate_agreed(const uint8_t *reply, size_t reply_length);

#ifdef __cplusplus
}
#endif

#endif
