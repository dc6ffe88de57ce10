//! The numbers of tables, events, answers, states and refusals: those of include/mueanphrai.h, under
//! its names without the prefix. docs/FORMATS.md says where each stands and what it means.
//!
//! Sizes, places and counts are `usize`, bytes are `u8`, ticks have the width of their field. Numbers
//! of more than one byte are little-endian.

/// Bytes of a table record.
pub const TABLE_RECORD: usize = 48;
/// Bytes of an event.
pub const EVENT: usize = 80;
/// Bytes of an answer.
pub const ANSWER: usize = 80;
/// Most bytes of a message.
pub const LONGEST_MESSAGE: usize = 64;

/// How many partitions there are, numbered from 0.
pub const PARTITIONS: usize = 16;
/// Most windows of tables; there is at least one.
pub const MOST_WINDOWS: usize = 64;
/// Most ports of tables.
pub const MOST_PORTS: usize = 64;
/// Most channels of tables.
pub const MOST_CHANNELS: usize = 32;
/// Most destinations of a channel; there is at least one.
pub const MOST_DESTINATIONS: usize = 8;
/// Most messages in a queuing port; its depth is at least 1.
pub const GREATEST_DEPTH: usize = 8;
/// Most bytes of a name; there is at least one.
pub const LONGEST_NAME: usize = 30;
/// Longest refresh period of a sampling destination, in ticks.
pub const LONGEST_REFRESH: u32 = 1_000_000;
/// Longest window, in ticks.
pub const LONGEST_WINDOW: u16 = 10_000;

/// Place in a table record: its kind.
pub const RECORD_KIND: usize = 0;
/// Kind of a window's record.
pub const KIND_WINDOW: u8 = 1;
/// Kind of a port's record.
pub const KIND_PORT: u8 = 2;
/// Kind of a channel's record.
pub const KIND_CHANNEL: u8 = 3;

/// Place in a window's record: its partition, or [`MOVER`].
pub const WINDOW_PARTITION: usize = 1;
/// Place in a window's record: its length in ticks, 2 bytes.
pub const WINDOW_LENGTH: usize = 2;
/// Stands for a partition in a window in which messages are moved.
pub const MOVER: u8 = 32;

/// Place in a port's record: the partition that owns it.
pub const PORT_OWNER: usize = 1;
/// Place in a port's record: [`SAMPLING`] or [`QUEUING`].
pub const PORT_MODE: usize = 2;
/// Place in a port's record: [`SOURCE`] or [`DESTINATION`].
pub const PORT_DIRECTION: usize = 3;
/// Place in a port's record: the largest message, 4 bytes.
pub const PORT_LARGEST: usize = 4;
/// Place in a port's record: the depth, 4 bytes; 0 of a sampling port.
pub const PORT_DEPTH: usize = 8;
/// Place in a port's record: the refresh period, 4 bytes; 0 of all but sampling destinations.
pub const PORT_REFRESH: usize = 12;
/// Place in a port's record: the name, 30 bytes, zeros after it.
pub const PORT_NAME: usize = 16;

/// Place in a channel's record: how many destinations it has.
pub const CHANNEL_COUNT: usize = 1;
/// Place in a channel's record: the source's id, 2 bytes.
pub const CHANNEL_SOURCE: usize = 2;
/// Place in a channel's record: eight ids of destinations, 2 bytes each; unused ones are 0.
pub const CHANNEL_DESTINATIONS: usize = 4;

/// A port's mode: it keeps one message, the newest.
pub const SAMPLING: u8 = 0;
/// A port's mode: it keeps up to its depth, oldest first.
pub const QUEUING: u8 = 1;
/// A port's direction: its owner writes or sends, its channel takes.
pub const SOURCE: u8 = 0;
/// A port's direction: its channel delivers, its owner reads or receives.
pub const DESTINATION: u8 = 1;

/// A partition's mode: stopped. Its calls are answered [`PARTITION_IDLE`].
pub const IDLE: u8 = 0;
/// A partition's mode: the one at load.
pub const COLD_START: u8 = 1;
/// A partition's mode: started again.
pub const WARM_START: u8 = 2;
/// A partition's mode: running. No port is created in it.
pub const NORMAL: u8 = 3;

/// Code of an event: a sampling port of the tables is created.
pub const CREATE_SAMPLING_PORT: u8 = 1;
/// Code of an event: a message replaces the one in a sampling source.
pub const WRITE_SAMPLING_MESSAGE: u8 = 2;
/// Code of an event: the message of a sampling destination, which stays there, and its validity.
pub const READ_SAMPLING_MESSAGE: u8 = 3;
/// Code of an event: the id of a created sampling port, by name.
pub const GET_SAMPLING_PORT_ID: u8 = 4;
/// Code of an event: a sampling port's row and last validity.
pub const GET_SAMPLING_PORT_STATUS: u8 = 5;
/// Code of an event: a queuing port of the tables is created.
pub const CREATE_QUEUING_PORT: u8 = 6;
/// Code of an event: a message joins those in a queuing source, or is lost.
pub const SEND_QUEUING_MESSAGE: u8 = 7;
/// Code of an event: the oldest message leaves a queuing destination.
pub const RECEIVE_QUEUING_MESSAGE: u8 = 8;
/// Code of an event: the id of a created queuing port, by name.
pub const GET_QUEUING_PORT_ID: u8 = 9;
/// Code of an event: a queuing port's row and, of a destination, its message count.
pub const GET_QUEUING_PORT_STATUS: u8 = 10;
/// Code of an event: a queuing destination is emptied.
pub const CLEAR_QUEUING_PORT: u8 = 11;
/// Code of an event: the caller's mode is set.
pub const SET_PARTITION_MODE: u8 = 12;
/// Code of an event: the clock's step to the next window.
pub const SCHEDULE: u8 = 13;
/// Code of an event: the oldest message of a channel's source is moved to its destinations.
pub const TRANSMIT: u8 = 14;

/// Place in an event: its code.
pub const EVENT_CODE: usize = 0;
/// Place in an event: the direction, of codes 1 and 6.
pub const EVENT_DIRECTION: usize = 1;
/// Place in an event: the new mode, of code 12.
pub const EVENT_NEW_MODE: usize = 1;
/// Place in an event: the port's id, 2 bytes, of codes 2, 3, 5, 7, 8, 10 and 11.
pub const EVENT_PORT: usize = 2;
/// Place in an event: the channel, 2 bytes, of code 14.
pub const EVENT_CHANNEL: usize = 2;
/// Place in an event: the refresh period, 4 bytes, of code 1.
pub const EVENT_REFRESH: usize = 4;
/// Place in an event: the depth, 4 bytes, of code 6.
pub const EVENT_DEPTH: usize = 4;
/// Place in an event: the message's length, 4 bytes, of codes 2 and 7.
pub const EVENT_MESSAGE_LENGTH: usize = 8;
/// Place in an event: the largest message, 4 bytes, of codes 1 and 6.
pub const EVENT_LARGEST: usize = 8;
/// Place in an event: the message, of codes 2 and 7.
pub const EVENT_MESSAGE: usize = 16;
/// Place in an event: the name, 30 bytes, zeros after it, of codes 1, 4, 6 and 9.
pub const EVENT_NAME: usize = 16;

/// Place in an answer: its code.
pub const ANSWER_CODE: usize = 0;
/// Place in an answer: its doer.
pub const ANSWER_DOER: usize = 1;
/// Place in an answer: the port's id, 2 bytes, to codes 1, 4, 6 and 9.
pub const ANSWER_PORT: usize = 2;
/// Place in an answer: the refresh period, 4 bytes, to code 5.
pub const ANSWER_REFRESH: usize = 4;
/// Place in an answer: how many messages the port holds, 4 bytes, to code 10; 0 of a source port.
pub const ANSWER_COUNT: usize = 4;
/// Place in an answer: the new time, 4 bytes, to code 13.
pub const ANSWER_TIME: usize = 4;
/// Place in an answer: the message's length, 4 bytes, to codes 3 and 8.
pub const ANSWER_MESSAGE_LENGTH: usize = 8;
/// Place in an answer: the largest message, 4 bytes, to codes 5 and 10.
pub const ANSWER_LARGEST: usize = 8;
/// Place in an answer: the validity, to code 3; that of the last read, to code 5.
pub const ANSWER_VALIDITY: usize = 12;
/// Place in an answer: the direction, to codes 5 and 10.
pub const ANSWER_DIRECTION: usize = 13;
/// Place in an answer: the depth, 2 bytes, to code 10.
pub const ANSWER_DEPTH: usize = 14;
/// Place in an answer: the message, zeros after it, to codes 3 and 8.
pub const ANSWER_MESSAGE: usize = 16;

/// Validity of a sample older than its refresh period.
pub const NOT_VALID: u8 = 0;
/// Validity of a sample whose age is at most its refresh period.
pub const VALID: u8 = 1;

/// Code of an answer: done.
pub const NO_ERROR: u8 = 0;
/// Code of an answer: nothing to do.
pub const NO_ACTION: u8 = 1;
/// Code of an answer: no message to receive.
pub const NOT_AVAILABLE: u8 = 2;
/// Code of an answer: no own port, a length of 0 or a mode above 3.
pub const INVALID_PARAM: u8 = 3;
/// Code of an answer: not as the tables say.
pub const INVALID_CONFIG: u8 = 4;
/// Code of an answer: not in this mode, or not at a port of this direction.
pub const INVALID_MODE: u8 = 5;
/// Code of an answer: a call of a partition in [`IDLE`].
pub const PARTITION_IDLE: u8 = 15;
/// Code of an answer: a partition's call in a mover window.
pub const CALL_IN_MOVER_WINDOW: u8 = 16;
/// Code of an answer: a move in a partition's window.
pub const MOVE_IN_PARTITION_WINDOW: u8 = 17;
/// Code of an answer: a move of a channel that is not in the tables.
pub const NO_SUCH_CHANNEL: u8 = 18;
/// Code of an answer: an event with a code outside 1 to 14.
pub const NO_SUCH_CODE: u8 = 19;

/// Doer of [`SCHEDULE`].
pub const SCHEDULER: u8 = 32;
/// Doer of a [`TRANSMIT`] of channel 0; further channels follow.
pub const FIRST_CHANNEL: u8 = 64;
/// Doer of an event that is answered 16 to 19.
pub const NOBODY: u8 = 255;

/// Bytes of a state.
pub const STATE_SIZE: usize = 36_120;
/// Place in a state: the current window, 4 bytes.
pub const STATE_WINDOW: usize = 0;
/// Place in a state: the time, 4 bytes.
pub const STATE_TIME: usize = 4;
/// Place in a state: the mode of each partition, a byte each.
pub const STATE_MODES: usize = 8;
/// Place in a state: the port rows, thirteen numbers of 4 bytes each.
pub const STATE_NUMBERS: usize = 24;
/// Place in a state: the message bytes, eight slots of 64 for each row.
pub const STATE_MESSAGES: usize = 3_352;

/// Refusal of tables: length 0 or not a multiple of 48.
pub const TABLES_LENGTH: u8 = 20;
/// Refusal of tables: a kind not 1 to 3, or below the kind before.
pub const TABLES_KIND: u8 = 21;
/// Refusal of tables: a 65th window or port, or a 33rd channel.
pub const TABLES_TOO_MANY: u8 = 22;
/// Refusal of tables: a field outside its range, or a byte that should be zero.
pub const TABLES_FIELD: u8 = 23;
/// Refusal of tables: a name that is none, or that an earlier port of the same owner has.
pub const TABLES_NAME: u8 = 24;
/// Refusal of tables: a channel's end.
pub const TABLES_END: u8 = 25;
/// Refusal of tables: no window at all.
pub const TABLES_NO_WINDOW: u8 = 26;

/// Refusal of a list: events that are no whole records.
pub const EVENTS_LENGTH: u8 = 27;
/// Refusal of a list: fewer answer bytes than event bytes.
pub const ANSWERS_SHORT: u8 = 28;
/// Refusal of a list: tables that a load refuses, or a state number outside its range.
pub const STATE_REFUSED: u8 = 29;
