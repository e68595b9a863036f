//! The functions of the static library, as include/yindolve.h declares them.

/// What `yindolve_run` answers where the answers do not fit: no refusal.
pub const FULL: u64 = 100;

macro_rules! combinations {
    ($($name:ident)*) => {
        extern "C" {
            $(pub fn $name(
                arities: *const u64,
                arities_count: usize,
                first: *const u64,
                first_count: usize,
                second: *const u64,
                second_count: usize,
                result: *mut u64,
                result_count: usize,
                work: *mut u64,
                work_count: usize,
                rows: *mut u64,
                pairs: *mut u64,
            ) -> u64;)*
        }
    };
}

combinations! {
    yindolve_sum_apart yindolve_sum_shared yindolve_product_apart yindolve_product_shared yindolve_max_apart yindolve_max_shared
}

extern "C" {
    pub fn yindolve_check(arities: *const u64, arities_count: usize, words: *const u64, words_count: usize) -> u64;

    pub fn yindolve_regress(
        arities: *const u64,
        arities_count: usize,
        words: *const u64,
        words_count: usize,
        truths: *const u64,
        truths_count: usize,
        spans: *const u64,
        spans_count: usize,
        result: *mut u64,
        result_count: usize,
        work: *mut u64,
        work_count: usize,
        rows: *mut u64,
    ) -> u64;

    pub fn yindolve_free_parameters(
        arities: *const u64,
        arities_count: usize,
        words: *const u64,
        words_count: usize,
        parameters: u64,
        result: *mut u64,
        result_count: usize,
        work: *const u64,
        work_count: usize,
        rows: *mut u64,
    ) -> u64;

    pub fn yindolve_cut(
        arities: *const u64,
        arities_count: usize,
        words: *const u64,
        words_count: usize,
        result: *mut u64,
        result_count: usize,
        work: *mut u64,
        work_count: usize,
        row: *mut u64,
        edge: *mut u64,
        rows: *mut u64,
    ) -> u64;

    pub fn yindolve_reduce(
        arities: *const u64,
        arities_count: usize,
        words: *const u64,
        words_count: usize,
        result: *mut u64,
        result_count: usize,
        work: *mut u64,
        work_count: usize,
        rows: *mut u64,
    ) -> u64;

    pub fn yindolve_value(
        arities: *const u64,
        arities_count: usize,
        words: *const u64,
        words_count: usize,
        objects: u64,
        constants: *const u64,
        constants_count: usize,
        facts: *const u64,
        facts_count: usize,
        value: *mut u64,
    ) -> u64;
}

extern "C" {
    pub fn yindolve_run(
        text: *const u8,
        text_count: usize,
        answers: *mut u8,
        answers_count: usize,
        bytes: *mut u64,
        lines: *mut u64,
    ) -> u64;

    pub fn yindolve_open(
        numbers: *mut u64,
        numbers_count: usize,
        arities: *mut u64,
        arities_count: usize,
        state: *mut u64,
        state_count: usize,
    ) -> u64;

    pub fn yindolve_line(
        line: *const u8,
        line_count: usize,
        numbers: *mut u64,
        numbers_count: usize,
        names: *mut u64,
        names_count: usize,
        arities: *mut u64,
        arities_count: usize,
        listings: *mut u64,
        listings_count: usize,
        table: *mut u64,
        table_count: usize,
        state: *mut u64,
        state_count: usize,
        value: *mut u64,
        value_count: usize,
        work: *mut u64,
        work_count: usize,
        answer: *mut u8,
        answer_count: usize,
        bytes: *mut u64,
    ) -> u64;

    pub fn yindolve_lines(
        block: *const u8,
        block_count: usize,
        numbers: *mut u64,
        numbers_count: usize,
        names: *mut u64,
        names_count: usize,
        arities: *mut u64,
        arities_count: usize,
        listings: *mut u64,
        listings_count: usize,
        table: *mut u64,
        table_count: usize,
        state: *mut u64,
        state_count: usize,
        value: *mut u64,
        value_count: usize,
        work: *mut u64,
        work_count: usize,
        answers: *mut u8,
        answers_count: usize,
        bytes: *mut u64,
        read: *mut u64,
    ) -> u64;

    pub fn yindolve_end(numbers: *const u64, numbers_count: usize, answer: *mut u8, answer_count: usize, bytes: *mut u64) -> u64;
}
