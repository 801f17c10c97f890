//! The engine's own functions, as include/mestecur.h declares and explains them.

use crate::{Case, Entry};

extern "C" {
    /// Tests whether a file holds a chart.
    pub fn mestecur_check(file: *const u8, file_len: usize) -> u8;

    /// Writes the first configuration.
    pub fn mestecur_first(
        file: *const u8,
        file_len: usize,
        config: *mut u8,
        config_len: usize,
    ) -> u8;

    /// Gives the input and the output interface.
    pub fn mestecur_interface(
        file: *const u8,
        file_len: usize,
        input: *mut u64,
        output: *mut u64,
    ) -> u8;

    /// Makes one step.
    pub fn mestecur_step(
        file: *const u8,
        file_len: usize,
        config: *const u8,
        config_len: usize,
        input: u64,
        next: *mut u8,
        next_len: usize,
        output: *mut u64,
        mark: *mut u8,
        places: *mut [u8; 16],
        open: *mut u64,
    ) -> u8;

    /// Makes a step for each input in turn.
    pub fn mestecur_run(
        file: *const u8,
        file_len: usize,
        config: *const u8,
        config_len: usize,
        carried: u64,
        inputs: *const u64,
        inputs_len: usize,
        rows: *mut u8,
        rows_len: usize,
        carried_on: *mut u64,
    ) -> u8;

    /// Writes the rewritten file.
    pub fn mestecur_rewrite(
        file: *const u8,
        file_len: usize,
        out: *mut u8,
        out_len: usize,
        length: *mut usize,
    ) -> u8;

    /// Gives whether a file is plain.
    pub fn mestecur_plain(file: *const u8, file_len: usize, plain: *mut u8) -> u8;

    /// Writes the file without its dead transitions.
    pub fn mestecur_clear(
        file: *const u8,
        file_len: usize,
        out: *mut u8,
        out_len: usize,
        length: *mut usize,
    ) -> u8;

    /// Posts a day for a book of cases.
    pub fn mestecur_post(
        file: *const u8,
        file_len: usize,
        cases: *mut Case,
        cases_len: usize,
        entries: *const Entry,
        entries_len: usize,
        rows: *mut u8,
        rows_len: usize,
    ) -> u8;

    /// Tests the guard of a transition on an offered set.
    pub fn mestecur_lacking(
        file: *const u8,
        file_len: usize,
        chart: usize,
        place: usize,
        offered: u64,
        answer: *mut u8,
        signal: *mut u8,
    ) -> u8;

    /// Reads typed text, and writes the file that it means.
    pub fn mestecur_read(
        text: *const u8,
        text_len: usize,
        out: *mut u8,
        out_len: usize,
        length: *mut usize,
        place: *mut usize,
    ) -> u8;

    /// Writes a file as typed text.
    pub fn mestecur_write(
        file: *const u8,
        file_len: usize,
        out: *mut u8,
        out_len: usize,
        length: *mut usize,
    ) -> u8;
}
