//! The calls as `include/kavurehy.h` declares them; a caller has the duties that it lists. A list is a pointer, never null, and
//! a length; lent memory must not overlap any other list of the call.

extern "C" {
    pub fn kavurehy_compile(
        alphabet: *const u8,
        alphabet_length: usize,
        text: *const u8,
        text_length: usize,
        form: *mut u32,
        form_memory: usize,
        counts: &mut [u32; 1],
    ) -> u32;

    pub fn kavurehy_compile_list(
        alphabet: *const u8,
        alphabet_length: usize,
        list: *const u8,
        list_length: usize,
        form: *mut u32,
        form_memory: usize,
        counts: &mut [u32; 1],
    ) -> u32;

    pub fn kavurehy_judge(
        form: *const u32,
        form_length: usize,
        word: *const u8,
        word_length: usize,
        accepted: &mut [u32; 1],
    ) -> u32;

    pub fn kavurehy_collapse(
        k: usize,
        path: *const u8,
        path_length: usize,
        word: *mut u8,
        word_memory: usize,
        counts: &mut [u32; 1],
    ) -> u32;

    pub fn kavurehy_spread(
        k: usize,
        word: *const u8,
        word_length: usize,
        path: *mut u8,
        path_memory: usize,
        counts: &mut [u32; 1],
    ) -> u32;

    pub fn kavurehy_decode(
        form: *const u32,
        form_length: usize,
        costs: *const u32,
        costs_length: usize,
        width: usize,
        columns: usize,
        path: *mut u8,
        path_memory: usize,
        word: *mut u8,
        word_memory: usize,
        work: *mut u32,
        work_memory: usize,
        counts: &mut [u32; 2],
    ) -> u32;

    pub fn kavurehy_compare(
        first: *const u32,
        first_length: usize,
        second: *const u32,
        second_length: usize,
        costs: *const u32,
        costs_length: usize,
        width: usize,
        columns: usize,
        work: *mut u32,
        work_memory: usize,
        difference: &mut [i32; 1],
    ) -> u32;

    pub fn kavurehy_read(
        alphabet: *const u8,
        alphabet_length: usize,
        text: *const u8,
        text_length: usize,
        costs: *const u32,
        costs_length: usize,
        width: usize,
        columns: usize,
        form: *mut u32,
        form_memory: usize,
        path: *mut u8,
        path_memory: usize,
        word: *mut u8,
        word_memory: usize,
        work: *mut u32,
        work_memory: usize,
        counts: &mut [u32; 3],
    ) -> u32;

    pub fn kavurehy_costs(
        confidences: *const u8,
        confidences_length: usize,
        costs: *mut u32,
        costs_memory: usize,
    ) -> u32;
}
