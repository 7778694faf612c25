/* Mescjadro: the menu machine of Blu-ray discs, as a library for C.
 *
 * Every call hands back a number: 0, or a refusal, which leaves everything that was lent as it was.
 *
 *   1 too long       a file of over 16,777,216 bytes
 *   2 bad header     under 40 bytes, or not MOBJ / INDX
 *   3 bad body       a read, seek or stated length passes the end, or the AppInfo length is under 2
 *   4 bad entry      an index entry of type 0 or 3, or a BD-J name that is not UTF-8
 *   5 no room        an output longer than the lent buffer, or a written file over the limit
 *   6 bad buffer     banks not 4,096 and 128 numbers, room for over 65,536 frames of a kind, commands not in whole
 *                    twelves, or any other array that has not the length given here
 *   7 bad budget     steps over 1,000,000, objects over 100,000 or titles over 10,000
 *   8 bad session    a depth over its room, an entry over 65,537, or, while pending, an object off the disc
 *   9 not encodable  no twelve bytes decode to the command, a field that doesn't fit, or a BD-J name that is not UTF-8
 *  10 not an entry   an entry over 65,537, or an object that isn't on the disc
 *
 * An array is lent as a pointer and a length, in elements. What a call reads is const; what it may write must overlap
 * nothing else that is lent to the same call. NULL with length 0 is an empty array; the pointers to a single number
 * (length, pc) must not be NULL. Nothing is kept after a call, and nothing is allocated: calls on different arrays may run
 * at the same time.
 *
 * Lengths that a comment gives as name[N] are tested: another length is refusal 6, before all else.
 */
#ifndef MESCJADRO_H
#define MESCJADRO_H

#include <stddef.h>
#include <stdint.h>

#ifdef __cplusplus
extern "C" {
#endif

#define MESCJADRO_GPR 4096            /* general registers */
#define MESCJADRO_PSR 128             /* status registers */
#define MESCJADRO_OBJECT_FRAME 2      /* numbers of an object frame: object, pc */
#define MESCJADRO_TITLE_FRAME 3       /* numbers of a title frame: entry, object, pc */
#define MESCJADRO_FIRST_PLAYBACK 65536
#define MESCJADRO_TOP_MENU 65537

/* ---- one command
 *
 * A decoded command is 13 numbers:
 *   [0] operand count 0..7        [1] group: 0 branch, 1 compare, 2 set, 3 reserved
 *   [2] the bits of a reserved group, else 0
 *   [3] sub-group 0..7            [4], [5] the two immediate flags, 0 or 1
 *   [6] the operation, 1..47 by its place on the sheet, 0 if it is unknown
 *   [7], [8] sub-group and code of an unknown operation, else 0
 *   [9], [10] operand 1: kind (0 absent, 1 immediate, 2 general, 3 status, 4 secondary) and value or register number
 *   [11], [12] operand 2, the same
 *
 * The sheet: 1 Nop, 2 GoTo, 3 Break, 4 JumpObject, 5 JumpTitle, 6 CallObject, 7 CallTitle, 8 Resume, 9 PlayPL,
 * 10 PlayPLatPlayItem, 11 PlayPLatMark, 12 TerminatePL, 13 LinkPI, 14 LinkMK; 15 Bc, 16 Eq, 17 Ne, 18 Ge, 19 Gt, 20 Le,
 * 21 Lt; 22 Move, 23 Swap, 24 Add, 25 Sub, 26 Mul, 27 Div, 28 Mod, 29 Rnd, 30 And, 31 Or, 32 Xor, 33 BitSet,
 * 34 BitClear, 35 ShiftLeft, 36 ShiftRight; 37 SetStream, 38 SetNvTimer, 39 SetButtonPage, 40 EnableButton,
 * 41 DisableButton, 42 SetSecondaryStream, 43 PopUpOff, 44 StillOn, 45 StillOff, 46 SetOutputMode, 47 SetStreamSS.
 */

/* Decodes command[12] into numbers[13]. Refusals: 6. */
uint32_t mescjadro_decode(const uint8_t *command, size_t command_len, uint32_t *numbers, size_t numbers_len);

/* Writes the twelve bytes of the command numbers[13] at the start of out, ignored bits zero; the rest of out stays.
 * Refusals: 6; 9 also where the numbers are none of a command; 5. */
uint32_t mescjadro_encode(const uint32_t *numbers, size_t numbers_len, uint8_t *out, size_t out_len);

/* Writes the text of command[12] at the start of out, without a line end, and its length into *length; the rest of out
 * stays. No text is longer than 102 bytes. Refusals: 6, 5. */
uint32_t mescjadro_list_command(const uint8_t *command, size_t command_len, uint8_t *out, size_t out_len, size_t *length);

/* ---- MovieObject.bdmv */

/* What the file holds, into result[2]: version, number of objects. Refusals: 6, 1, 2, 3. */
uint32_t mescjadro_objects(const uint8_t *file, size_t file_len, uint32_t *result, size_t result_len);

/* What object number `object` is, into result[5]: resume intention flag, menu call mask, title search mask, number of
 * commands, and where in the file the first of them stands; each has twelve bytes. Refusals: 6, 1, 2, 3, 10. */
uint32_t mescjadro_object(const uint8_t *file, size_t file_len, uint32_t object, uint32_t *result, size_t result_len);

/* Writes the listing of an object at the start of out, without a line end, and its length into *length; the rest of out
 * stays. Refusals: 1, 2, 3, 10, 5. */
uint32_t mescjadro_list_object(const uint8_t *file, size_t file_len, uint32_t object, uint8_t *out, size_t out_len,
                               size_t *length);

/* Writes the listings of all objects at the start of out, each with a line end, and their length into *length; the rest of
 * out stays. They have at most 57 bytes for each object and 10 for each byte of the file. Refusals: 1, 2, 3, 5. */
uint32_t mescjadro_list(const uint8_t *file, size_t file_len, uint8_t *out, size_t out_len, size_t *length);

/* Writes a file at the start of out and its length into *length; the rest of out stays. For each object there are three
 * flags, 0 or 1, and a number of commands; all commands follow one another, twelve bytes each. Refusals: 6, 9, 5. */
uint32_t mescjadro_write_objects(uint32_t version, const uint8_t *flags, size_t flags_len, const uint32_t *counts,
                                 size_t counts_len, const uint8_t *commands, size_t commands_len, uint8_t *out,
                                 size_t out_len, size_t *length);

/* ---- index.bdmv
 *
 * Entries: 1..65,535 a title, 0 the title 0 that never resolves, 65,536 first playback, 65,537 top menu.
 */

/* What the file holds, into result[6]: version, initial output mode preference, content exist flag, video format, frame
 * rate, number of titles. Refusals: 6, 1, 2, 3, 4. */
uint32_t mescjadro_index(const uint8_t *index, size_t index_len, uint32_t *result, size_t result_len);

/* What stands at an entry, into result[8]: type (0 nothing, 1 HDMV, 2 BD-J), playback type, object number of an HDMV
 * entry, and the five bytes of a BD-J entry's name; what an entry hasn't is 0. Refusals: 6, 1, 2, 3, 4, 10. */
uint32_t mescjadro_entry(const uint8_t *index, size_t index_len, uint32_t entry, uint32_t *result, size_t result_len);

/* Where an entry leads, into result[2]: 1 and the object number, or 0 and 0. Refusals: 6, 1, 2, 3, 4, 10. */
uint32_t mescjadro_resolve(const uint8_t *index, size_t index_len, uint32_t entry, uint32_t *result, size_t result_len);

/* Writes a file at the start of out and its length into *length; the rest of out stays. app[4]: initial output mode
 * preference, content exist flag, video format, frame rate. For each entry (first playback, top menu, then the titles) a
 * type, 1 HDMV or 2 BD-J, a playback type 0..3, an object number and a name of five bytes, of which its type uses one.
 * Refusals: 6, 9, 5. */
uint32_t mescjadro_write_index(uint32_t version, const uint8_t *app, size_t app_len, const uint8_t *kinds,
                               size_t kinds_len, const uint8_t *playbacks, size_t playbacks_len,
                               const uint16_t *objects, size_t objects_len, const uint8_t *names, size_t names_len,
                               uint8_t *out, size_t out_len, size_t *length);

/* ---- registers, sessions and budgets
 *
 * Banks: gpr[4096], psr[128]. A session[6]: entry, object, pc, object frames live, title frames live, pending (0, or
 * any other number for yes; calls leave 0 or 1). budgets[3]: steps of an object, object transitions of a title, title
 * transitions of a call.
 */

/* Fresh banks: all zero. Refusals: 6. */
uint32_t mescjadro_fresh_banks(uint32_t *gpr, size_t gpr_len, uint32_t *psr, size_t psr_len);

/* A fresh session: 65,536, 0, 0, 0, 0, 0. Refusals: 6. */
uint32_t mescjadro_fresh_session(uint32_t *session, size_t session_len);

/* The largest budgets: 1,000,000, 100,000, 10,000. Refusals: 6. */
uint32_t mescjadro_default_budgets(uint32_t *budgets, size_t budgets_len);

/* A register, into result[2]: 1 and its value, or 0 and 0 where no register has the number. Refusals: 6. */
uint32_t mescjadro_gpr(const uint32_t *gpr, size_t gpr_len, uint16_t number, uint32_t *result, size_t result_len);
uint32_t mescjadro_psr(const uint32_t *psr, size_t psr_len, uint16_t number, uint32_t *result, size_t result_len);

/* Writes a register, as the player does; where no register has the number nothing is written. Refusals: 6. */
uint32_t mescjadro_set_gpr(uint32_t *gpr, size_t gpr_len, uint16_t number, uint32_t value);
uint32_t mescjadro_set_psr_player(uint32_t *psr, size_t psr_len, uint16_t number, uint32_t value);

/* ---- the command machine
 *
 * A request is four numbers: the operation's number on the sheet (4..14, or 37..47 for a system request, 0 for one whose
 * code is unknown), the values of operand 1 and operand 2 (0 where the operation has none), and the code of an unknown
 * system request, else 0.
 *
 * answer[5]: [0] 0 continue, 1 skipped, 2 halted, 3 branch; [1]..[4] the request of a branch, else 0.
 */

/* Obeys the command at *pc and leaves there where the machine goes on. Refusals: 6, 7. */
uint32_t mescjadro_vm_step(uint32_t *gpr, size_t gpr_len, uint32_t *psr, size_t psr_len, const uint8_t *commands,
                           size_t commands_len, size_t *pc, uint32_t budget, uint32_t *answer, size_t answer_len);

/* Steps from *pc on until a halt (2), a branch (3) or until the budget is spent (2). Refusals: 6, 7. */
uint32_t mescjadro_vm_run(uint32_t *gpr, size_t gpr_len, uint32_t *psr, size_t psr_len, const uint8_t *commands,
                          size_t commands_len, size_t *pc, uint32_t budget, uint32_t *answer, size_t answer_len);

/* ---- drives
 *
 * outcome[6], of which [0] says which it is:
 *   0 finished            the rest 0
 *   1 play                [1] playlist, [2] 1 if a play item is given, [3] the play item, [4] 1 if a mark is given,
 *                         [5] the mark
 *   2 request             [1]..[4] the request, [5] 0
 *   3 bad title           [1] the title, the rest 0
 *   4 bad object          [1] the object, the rest 0
 *   5 budget exhausted    the rest 0
 *   6 object stack full   the rest 0
 *   7 title stack full    the rest 0
 * The runner follows jumps and calls of objects and hands every other request on as 2; it gives 0, 2, 4, 5 and 6.
 *
 * frames: room for object frames; titles: room for title frames; left-over numbers are unused. A call reads its files
 * anew. session[6] and outcome[6] are written together, and only where no refusal is given.
 */

/* The runner: starts an object. Refusals: 6, 7, 1, 2, 3, 8. */
uint32_t mescjadro_runner_run(uint32_t *gpr, size_t gpr_len, uint32_t *psr, size_t psr_len, uint32_t *frames,
                              size_t frames_len, const uint32_t *titles, size_t titles_len, const uint8_t *file,
                              size_t file_len, uint32_t object, const uint32_t *budgets, size_t budgets_len,
                              uint32_t *session, size_t session_len, uint32_t *outcome, size_t outcome_len);

/* The runner: goes on from where the session stands, which is tested as if it were pending. Refusals: 6, 7, 1, 2, 3, 8. */
uint32_t mescjadro_runner_resume(uint32_t *gpr, size_t gpr_len, uint32_t *psr, size_t psr_len, uint32_t *frames,
                                 size_t frames_len, const uint32_t *titles, size_t titles_len, const uint8_t *file,
                                 size_t file_len, const uint32_t *budgets, size_t budgets_len, uint32_t *session,
                                 size_t session_len, uint32_t *outcome, size_t outcome_len);

/* The driver: starts an entry and drives until the disc's program finishes or asks something of the player.
 * Refusals: 6, 7, 10, index file 1, 2, 3, 4, object file 1, 2, 3, then 8. */
uint32_t mescjadro_driver_run(uint32_t *gpr, size_t gpr_len, uint32_t *psr, size_t psr_len, uint32_t *frames,
                              size_t frames_len, uint32_t *titles, size_t titles_len, const uint8_t *index,
                              size_t index_len, const uint8_t *file, size_t file_len, uint32_t entry,
                              const uint32_t *budgets, size_t budgets_len, uint32_t *session, size_t session_len,
                              uint32_t *outcome, size_t outcome_len);

/* The driver: goes on after the player has done what was asked; a session that isn't pending is finished.
 * Refusals: 6, 7, index file 1, 2, 3, 4, object file 1, 2, 3, then 8. */
uint32_t mescjadro_driver_resume(uint32_t *gpr, size_t gpr_len, uint32_t *psr, size_t psr_len, uint32_t *frames,
                                 size_t frames_len, uint32_t *titles, size_t titles_len, const uint8_t *index,
                                 size_t index_len, const uint8_t *file, size_t file_len, const uint32_t *budgets,
                                 size_t budgets_len, uint32_t *session, size_t session_len, uint32_t *outcome,
                                 size_t outcome_len);

/* ---- the disc check */

/* Whether a command on the disc can ask for what the disc lacks, into result[3]: 0, 0, 0 if none can; else 1, and the
 * object and the command of the first. Refusals: 6, index file 1, 2, 3, 4, object file 1, 2, 3. */
uint32_t mescjadro_disc_check(const uint8_t *index, size_t index_len, const uint8_t *file, size_t file_len,
                              uint32_t *result, size_t result_len);

#ifdef __cplusplus
}
#endif

#endif
