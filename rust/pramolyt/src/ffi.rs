//! The functions of include/pramolyt.h. Their symbols end in the edition of the record and of the arguments, so that an
//! archive of another edition does not link.

use crate::Board;

unsafe extern "C" {
    #[link_name = "pramolyt_make_r2"]
    pub fn pramolyt_make(board: *mut Board, width: usize, height: usize, entries: usize) -> u32;

    #[link_name = "pramolyt_post_r2"]
    pub fn pramolyt_post(
        board: *mut Board,
        place: *mut u64,
        list: *const u8,
        list_len: usize,
        start: usize,
        count: usize,
    ) -> u32;

    #[link_name = "pramolyt_store_r2"]
    pub fn pramolyt_store(
        board: *mut Board,
        list: *mut u8,
        list_len: usize,
        first: usize,
        bytes: *const u8,
        bytes_len: usize,
    ) -> u32;

    #[link_name = "pramolyt_feed_start_fields_r2"]
    pub fn pramolyt_feed_start_fields(next: *mut u64, held: *mut u8, count: *mut u32, entry: u64);

    #[link_name = "pramolyt_feed_fields_r2"]
    pub fn pramolyt_feed_fields(
        board: *mut Board,
        next: *mut u64,
        held: *mut u8,
        count: *mut u32,
        list: *mut u8,
        list_len: usize,
        piece: *const u8,
        piece_len: usize,
    ) -> u32;

    #[link_name = "pramolyt_window_write_r2"]
    pub fn pramolyt_window_write(
        board: *mut Board,
        number: usize,
        offset: usize,
        bytes: *const u8,
        bytes_len: usize,
        buffer: *mut u8,
        buffer_len: usize,
    ) -> u32;

    #[link_name = "pramolyt_export_r2"]
    pub fn pramolyt_export(
        board: *mut Board,
        written: *mut u64,
        number: usize,
        buffer: *const u8,
        buffer_len: usize,
        output: *mut u8,
        output_len: usize,
    ) -> u32;

    #[link_name = "pramolyt_import_r2"]
    pub fn pramolyt_import(
        board: *mut Board,
        number: usize,
        picture: *const u8,
        picture_len: usize,
        buffer: *mut u8,
        buffer_len: usize,
    ) -> u32;

    #[link_name = "pramolyt_run_r2"]
    pub fn pramolyt_run(
        board: *mut Board,
        steps: *mut u64,
        budget: u64,
        list: *const u8,
        list_len: usize,
        display: *mut u8,
        display_len: usize,
        virt: *mut u8,
        virt_len: usize,
    ) -> u32;

    #[link_name = "pramolyt_pack_r2"]
    pub fn pramolyt_pack(
        written: *mut u64,
        place: *mut u64,
        input: *const u8,
        input_len: usize,
        output: *mut u8,
        output_len: usize,
    ) -> u32;

    #[link_name = "pramolyt_unpack_r2"]
    pub fn pramolyt_unpack(
        written: *mut u64,
        place: *mut u64,
        input: *const u8,
        input_len: usize,
        output: *mut u8,
        output_len: usize,
    ) -> u32;
}
