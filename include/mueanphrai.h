/* Mueanphrai: the port and channel code of a small ARINC 653 kernel, for programs in C.
 *
 * Link with libhost.a, which `tools/staticlib` writes into target/staticlib. Every function is proved to give, for all
 * bytes of buffers that are there, the result and the bytes that crates/host/specs/Exports.antt says; none of them
 * allocates, keeps anything between calls, or touches a byte outside the buffers it is lent.
 *
 * What the caller owes, since no function can test it:
 *   - each pointer points at as many readable bytes as the length behind it says, and for a pointer that is not to const,
 *     writable ones. With length 0 the pointer still must not be null: any other address does.
 *   - a buffer that is written (state, answers) shares no byte with another buffer of the same call.
 *   - no other thread writes one of the buffers while the call runs.
 * Alignment is free. Two calls may run at once where they share no written buffer.
 */
#ifndef MUEANPHRAI_H
#define MUEANPHRAI_H

#include <stddef.h>
#include <stdint.h>

#ifdef __cplusplus
extern "C" {
#endif

/* The numbers of tables, events, answers and refusals. docs/FORMATS.md has them too, with ranges and an example, and docs/RULES.md says what
 * each event does; tests/check-numbers compares them with the model. Numbers of more than one byte are little-endian. */

/* Tables: records of 48 bytes. Events and answers: records of 80 bytes. A message: at most 64 bytes. */
#define MUEANPHRAI_TABLE_RECORD 48u
#define MUEANPHRAI_EVENT 80u
#define MUEANPHRAI_ANSWER 80u
#define MUEANPHRAI_LONGEST_MESSAGE 64u

/* The other limits of tables. Partitions, windows and channels are numbered from 0; ports have ids from 1, in the order of their records. */
#define MUEANPHRAI_PARTITIONS 16u
#define MUEANPHRAI_MOST_WINDOWS 64u         /* at least one */
#define MUEANPHRAI_MOST_PORTS 64u
#define MUEANPHRAI_MOST_CHANNELS 32u
#define MUEANPHRAI_MOST_DESTINATIONS 8u     /* of a channel; at least one */
#define MUEANPHRAI_GREATEST_DEPTH 8u        /* messages in a queuing port; at least one */
#define MUEANPHRAI_LONGEST_NAME 30u         /* bytes; at least one */
#define MUEANPHRAI_LONGEST_REFRESH 1000000u /* ticks; at least one at a sampling destination */
#define MUEANPHRAI_LONGEST_WINDOW 10000u    /* ticks; at least one */

/* A table record: byte 0 is its kind, and the kinds come in this order. */
#define MUEANPHRAI_RECORD_KIND 0u
#define MUEANPHRAI_KIND_WINDOW 1u
#define MUEANPHRAI_KIND_PORT 2u
#define MUEANPHRAI_KIND_CHANNEL 3u

/* Where the fields of a window stand: its partition, or 32 for a window in which messages are moved; its length in ticks, 2 bytes. */
#define MUEANPHRAI_WINDOW_PARTITION 1u
#define MUEANPHRAI_WINDOW_LENGTH 2u
#define MUEANPHRAI_MOVER 32u

/* Where the fields of a port stand. Largest message, depth and refresh period have 4 bytes, the name 30. */
#define MUEANPHRAI_PORT_OWNER 1u
#define MUEANPHRAI_PORT_MODE 2u
#define MUEANPHRAI_PORT_DIRECTION 3u
#define MUEANPHRAI_PORT_LARGEST 4u
#define MUEANPHRAI_PORT_DEPTH 8u
#define MUEANPHRAI_PORT_REFRESH 12u
#define MUEANPHRAI_PORT_NAME 16u

/* Where the fields of a channel stand: how many destinations, the source's id, eight ids of destinations. An id has 2 bytes. */
#define MUEANPHRAI_CHANNEL_COUNT 1u
#define MUEANPHRAI_CHANNEL_SOURCE 2u
#define MUEANPHRAI_CHANNEL_DESTINATIONS 4u

/* A port's mode and its direction, in tables, events and answers. */
#define MUEANPHRAI_SAMPLING 0u
#define MUEANPHRAI_QUEUING 1u
#define MUEANPHRAI_SOURCE 0u
#define MUEANPHRAI_DESTINATION 1u

/* A partition's mode, in SET_PARTITION_MODE and in the state. */
#define MUEANPHRAI_IDLE 0u
#define MUEANPHRAI_COLD_START 1u
#define MUEANPHRAI_WARM_START 2u
#define MUEANPHRAI_NORMAL 3u

/* The codes of events: 1 to 12 are a partition's calls, 13 is the clock's step, 14 the move of a channel. */
#define MUEANPHRAI_CREATE_SAMPLING_PORT 1u
#define MUEANPHRAI_WRITE_SAMPLING_MESSAGE 2u
#define MUEANPHRAI_READ_SAMPLING_MESSAGE 3u
#define MUEANPHRAI_GET_SAMPLING_PORT_ID 4u
#define MUEANPHRAI_GET_SAMPLING_PORT_STATUS 5u
#define MUEANPHRAI_CREATE_QUEUING_PORT 6u
#define MUEANPHRAI_SEND_QUEUING_MESSAGE 7u
#define MUEANPHRAI_RECEIVE_QUEUING_MESSAGE 8u
#define MUEANPHRAI_GET_QUEUING_PORT_ID 9u
#define MUEANPHRAI_GET_QUEUING_PORT_STATUS 10u
#define MUEANPHRAI_CLEAR_QUEUING_PORT 11u
#define MUEANPHRAI_SET_PARTITION_MODE 12u
#define MUEANPHRAI_SCHEDULE 13u
#define MUEANPHRAI_TRANSMIT 14u

/* Where the fields of an event stand. Two names of one place are for different codes; a field that a code has no use for is not
 * looked at. Ids and channels have 2 bytes, refresh, depth, length and largest 4, a name 30, a message up to 64. */
#define MUEANPHRAI_EVENT_CODE 0u
#define MUEANPHRAI_EVENT_DIRECTION 1u      /* codes 1, 6 */
#define MUEANPHRAI_EVENT_NEW_MODE 1u       /* 12 */
#define MUEANPHRAI_EVENT_PORT 2u           /* 2, 3, 5, 7, 8, 10, 11: the port's id */
#define MUEANPHRAI_EVENT_CHANNEL 2u        /* 14 */
#define MUEANPHRAI_EVENT_REFRESH 4u        /* 1 */
#define MUEANPHRAI_EVENT_DEPTH 4u          /* 6 */
#define MUEANPHRAI_EVENT_MESSAGE_LENGTH 8u /* 2, 7 */
#define MUEANPHRAI_EVENT_LARGEST 8u        /* 1, 6 */
#define MUEANPHRAI_EVENT_MESSAGE 16u       /* 2, 7 */
#define MUEANPHRAI_EVENT_NAME 16u          /* 1, 4, 6, 9: zeros after the name */

/* Where the fields of an answer stand. All but the first two are told with code 0 alone, by the codes named here, and are zero else.
 * Id and depth have 2 bytes, refresh, count, time, length and largest 4. */
#define MUEANPHRAI_ANSWER_CODE 0u
#define MUEANPHRAI_ANSWER_DOER 1u
#define MUEANPHRAI_ANSWER_PORT 2u           /* 1, 4, 6, 9: the port's id */
#define MUEANPHRAI_ANSWER_REFRESH 4u        /* 5 */
#define MUEANPHRAI_ANSWER_COUNT 4u          /* 10: how many messages; 0 of a source port */
#define MUEANPHRAI_ANSWER_TIME 4u           /* 13: the new time */
#define MUEANPHRAI_ANSWER_MESSAGE_LENGTH 8u /* 3, 8 */
#define MUEANPHRAI_ANSWER_LARGEST 8u        /* 5, 10 */
#define MUEANPHRAI_ANSWER_VALIDITY 12u      /* 3; 5: that of the last read */
#define MUEANPHRAI_ANSWER_DIRECTION 13u     /* 5, 10 */
#define MUEANPHRAI_ANSWER_DEPTH 14u         /* 10 */
#define MUEANPHRAI_ANSWER_MESSAGE 16u       /* 3, 8: zeros after the message */

/* A validity: a sample is valid where its age is at most the port's refresh period. */
#define MUEANPHRAI_NOT_VALID 0u
#define MUEANPHRAI_VALID 1u

/* An answer's code. The first six are ARINC 653's return codes. */
#define MUEANPHRAI_NO_ERROR 0u
#define MUEANPHRAI_NO_ACTION 1u
#define MUEANPHRAI_NOT_AVAILABLE 2u
#define MUEANPHRAI_INVALID_PARAM 3u
#define MUEANPHRAI_INVALID_CONFIG 4u
#define MUEANPHRAI_INVALID_MODE 5u

/* These five come before any service. */
#define MUEANPHRAI_PARTITION_IDLE 15u           /* a call of a partition in IDLE */
#define MUEANPHRAI_CALL_IN_MOVER_WINDOW 16u     /* codes 1 to 12 in a mover window */
#define MUEANPHRAI_MOVE_IN_PARTITION_WINDOW 17u /* code 14 in a partition's window */
#define MUEANPHRAI_NO_SUCH_CHANNEL 18u          /* code 14 with a channel that is not in the tables */
#define MUEANPHRAI_NO_SUCH_CODE 19u             /* a code outside 1 to 14 */

/* An answer's doer: a partition 0 to 15, the scheduler, 64 plus the channel's number, or nobody (answers 16 to 19). */
#define MUEANPHRAI_SCHEDULER 32u
#define MUEANPHRAI_FIRST_CHANNEL 64u
#define MUEANPHRAI_NOBODY 255u

/* The state is a buffer of exactly this many bytes.
 *
 *   from    bytes
 *   0       4       current window, from 0
 *   4       4       time: the tick count, any number; 0 comes after 4,294,967,295
 *   8       16      the mode of each partition: IDLE 0, COLD_START 1, WARM_START 2, NORMAL 3
 *   24      3,328   64 port rows of thirteen numbers of 4 bytes; row k starts at 24 + 52 k:
 *                     number 0     created mark, 0 or 1
 *                            1     validity of the last read, 0 or 1
 *                            2     arrival time, any number
 *                            3     slot of the oldest message, 0 to 7
 *                            4     stored count, up to the depth, or 1 for sampling; 0 in an uncreated port
 *                            5-12  length of the message in slot 0 to 7, 1 to the row's largest where one is stored
 *   3,352   32,768  the message bytes: 64 blocks of eight slots of 64 bytes; slot s of row k starts at 3,352 + 512 k + 64 s
 *
 * Row k is that of port k, the tables' ports in their order, from 0: the port with id k + 1. Rows beyond the tables' ports are not
 * looked at and stay as they are. After a list that was run and is not empty, the oldest message of each of the tables' ports is
 * in slot 0, the others follow, and every length and byte of these rows that is no message's is zero.
 */
#define MUEANPHRAI_STATE_SIZE 36120u
#define MUEANPHRAI_STATE_WINDOW 0u
#define MUEANPHRAI_STATE_TIME 4u
#define MUEANPHRAI_STATE_MODES 8u
#define MUEANPHRAI_STATE_NUMBERS 24u
#define MUEANPHRAI_STATE_MESSAGES 3352u

/* Refusals of tables. The first offending record decides; within a record the lower number. */
#define MUEANPHRAI_TABLES_LENGTH 20u    /* length 0 or not a multiple of 48; record 0; tested first */
#define MUEANPHRAI_TABLES_KIND 21u      /* a kind not 1 to 3, or below the kind before */
#define MUEANPHRAI_TABLES_TOO_MANY 22u  /* a 65th window or port, or a 33rd channel */
#define MUEANPHRAI_TABLES_FIELD 23u     /* a field outside its range, or a byte that should be zero */
#define MUEANPHRAI_TABLES_NAME 24u      /* a name empty or nonzero after a zero, or an earlier port of the same owner has it */
#define MUEANPHRAI_TABLES_END 25u       /* a channel's end: no such port, its direction, mode, count or size, or named twice */
#define MUEANPHRAI_TABLES_NO_WINDOW 26u /* no window at all; record = number of records; tested last */

/* Refusals of calls on lists, tested in this order. */
#define MUEANPHRAI_EVENTS_LENGTH 27u /* events not a multiple of 80 bytes; for a single step, not exactly 80 */
#define MUEANPHRAI_ANSWERS_SHORT 28u /* answer buffer shorter than the events */
#define MUEANPHRAI_STATE_REFUSED 29u /* tables that a load refuses, or a state that is not one */

/* The size a state has in this archive: MUEANPHRAI_STATE_SIZE, for a host that wants to compare. */
size_t mueanphrai_state_size(void);

/* Loads tables: writes the state at load into `state` and answers 0.
 * Refused tables answer 20 to 26; else a state buffer of another size answers 29. A refused load touches no byte of `state`. */
uint8_t mueanphrai_load(const uint8_t *tables, size_t tables_length, uint8_t *state, size_t state_length);

/* The first offending record of tables that a load refuses, counted from 0; 0 where a load accepts them. */
size_t mueanphrai_refused_record(const uint8_t *tables, size_t tables_length);

/* Test 29: 1 where a load accepts the tables, the buffer has the size of a state and each of its numbers is in its range, else 0. */
uint8_t mueanphrai_in_range(const uint8_t *tables, size_t tables_length, const uint8_t *state, size_t state_length);

/* Runs a list of events, 80 bytes each, in order: writes the answer of event i to bytes 80 i up to 80 i + 80 of `answers`, the state
 * after the last event to `state`, and answers 0. Answer bytes past the last event stay.
 * Else it answers 27, 28 or 29 and touches no byte of `state` and `answers`. An empty list is run and does nothing. */
uint8_t mueanphrai_run(const uint8_t *tables, size_t tables_length, uint8_t *state, size_t state_length,
                       const uint8_t *events, size_t events_length, uint8_t *answers, size_t answers_length);

/* The same for one event of exactly 80 bytes. */
uint8_t mueanphrai_step(const uint8_t *tables, size_t tables_length, uint8_t *state, size_t state_length,
                        const uint8_t *event, size_t event_length, uint8_t *answers, size_t answers_length);

/* The reader: where in `answers` the message stands that record number `record` hands out, and its length. Where no such record
 * is there, its code is not 0 or its length field is over 64, or the answers are no whole records, start and length are 0. */
size_t mueanphrai_message_start(const uint8_t *answers, size_t answers_length, size_t record);
size_t mueanphrai_message_length(const uint8_t *answers, size_t answers_length, size_t record);

#ifdef __cplusplus
}
#endif

#endif
