//! The archive's calls on lent slices of any length, with the numbers that they answer.
//!
//! [`crate::State`] always has the right size; here a state is any slice, and one of another size
//! is refused by the kernel. All `unsafe` of the crate stands in this file, and all of it has one
//! reason: the header asks for pointers with that many bytes behind them, for written buffers that
//! share no byte with others, and for no other writer. A slice is such a pointer with its length,
//! never null even where it is empty, and a `&mut` slice is alone with its bytes as long as the
//! call runs. The archive keeps no pointer.
#![allow(unsafe_code)]

/// The functions of include/mueanphrai.h.
mod archive {
    extern "C" {
        pub fn mueanphrai_state_size() -> usize;
        pub fn mueanphrai_load(
            tables: *const u8,
            tables_length: usize,
            state: *mut u8,
            state_length: usize,
        ) -> u8;
        pub fn mueanphrai_refused_record(tables: *const u8, tables_length: usize) -> usize;
        pub fn mueanphrai_in_range(
            tables: *const u8,
            tables_length: usize,
            state: *const u8,
            state_length: usize,
        ) -> u8;
        pub fn mueanphrai_run(
            tables: *const u8,
            tables_length: usize,
            state: *mut u8,
            state_length: usize,
            events: *const u8,
            events_length: usize,
            answers: *mut u8,
            answers_length: usize,
        ) -> u8;
        pub fn mueanphrai_step(
            tables: *const u8,
            tables_length: usize,
            state: *mut u8,
            state_length: usize,
            event: *const u8,
            event_length: usize,
            answers: *mut u8,
            answers_length: usize,
        ) -> u8;
        pub fn mueanphrai_message_start(
            answers: *const u8,
            answers_length: usize,
            record: usize,
        ) -> usize;
        pub fn mueanphrai_message_length(
            answers: *const u8,
            answers_length: usize,
            record: usize,
        ) -> usize;
    }
}

/// The size that a state has in the archive: [`crate::STATE_SIZE`].
pub fn state_size() -> usize {
    unsafe { archive::mueanphrai_state_size() }
}

/// Loads tables into a state: 0, or the refusal.
pub fn load(tables: &[u8], state: &mut [u8]) -> u8 {
    unsafe {
        archive::mueanphrai_load(
            tables.as_ptr(),
            tables.len(),
            state.as_mut_ptr(),
            state.len(),
        )
    }
}

/// The first offending record of tables that a load refuses, else 0.
pub fn refused_record(tables: &[u8]) -> usize {
    unsafe { archive::mueanphrai_refused_record(tables.as_ptr(), tables.len()) }
}

/// Test 29: 1 where the tables and the state pass it, else 0.
pub fn in_range(tables: &[u8], state: &[u8]) -> u8 {
    unsafe {
        archive::mueanphrai_in_range(tables.as_ptr(), tables.len(), state.as_ptr(), state.len())
    }
}

/// Runs a list: 0, 27, 28 or 29.
pub fn run(tables: &[u8], state: &mut [u8], events: &[u8], answers: &mut [u8]) -> u8 {
    unsafe {
        archive::mueanphrai_run(
            tables.as_ptr(),
            tables.len(),
            state.as_mut_ptr(),
            state.len(),
            events.as_ptr(),
            events.len(),
            answers.as_mut_ptr(),
            answers.len(),
        )
    }
}

/// Runs one event of exactly 80 bytes: 0, 27, 28 or 29.
pub fn step(tables: &[u8], state: &mut [u8], event: &[u8], answers: &mut [u8]) -> u8 {
    unsafe {
        archive::mueanphrai_step(
            tables.as_ptr(),
            tables.len(),
            state.as_mut_ptr(),
            state.len(),
            event.as_ptr(),
            event.len(),
            answers.as_mut_ptr(),
            answers.len(),
        )
    }
}

/// Where the message of an answer record starts, or 0.
pub fn message_start(answers: &[u8], record: usize) -> usize {
    unsafe { archive::mueanphrai_message_start(answers.as_ptr(), answers.len(), record) }
}

/// The length of the message of an answer record, or 0.
pub fn message_length(answers: &[u8], record: usize) -> usize {
    unsafe { archive::mueanphrai_message_length(answers.as_ptr(), answers.len(), record) }
}
