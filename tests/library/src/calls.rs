//! The library's exported functions. A slice passes as pointer, then length.

extern "C" {
    pub fn test_write(
        width: usize,
        format: *const u8,
        format_len: usize,
        shapes: *const usize,
        shapes_len: usize,
        numbers: *const i64,
        numbers_len: usize,
        count: usize,
        area: *const u8,
        area_len: usize,
        buffer: *mut u8,
        buffer_len: usize,
        answer: *mut usize,
        answer_len: usize,
    );
    pub fn test_read(
        width: usize,
        format: *const u8,
        format_len: usize,
        shapes: *const usize,
        shapes_len: usize,
        numbers: *const i64,
        numbers_len: usize,
        count: usize,
        area: *mut u8,
        area_len: usize,
        records: *const u8,
        records_len: usize,
        given_shapes: *mut usize,
        given_shapes_len: usize,
        given_numbers: *mut i64,
        given_numbers_len: usize,
        answer: *mut usize,
        answer_len: usize,
    );
    pub fn test_check(format: *const u8, format_len: usize, answer: *mut usize, answer_len: usize);
    pub fn test_list_text(
        text: *const u8,
        text_len: usize,
        shapes: *mut usize,
        shapes_len: usize,
        numbers: *mut i64,
        numbers_len: usize,
        answer: *mut usize,
        answer_len: usize,
    );
    pub fn test_record_buffer() -> usize;
    pub fn test_output() -> usize;
    pub fn test_sheet(input: *const u8, input_len: usize, records: *mut u8, output: *mut u8) -> usize;
    pub fn trimsheet_write_slices(
        width: usize,
        format: *const u8,
        format_len: usize,
        list_text: *const u8,
        list_text_len: usize,
        records: *mut u8,
        records_len: usize,
    ) -> i64;
    pub fn trimsheet_check_slice(format: *const u8, format_len: usize) -> i64;
}
