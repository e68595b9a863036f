//! The static library's calls on slices, with the names and arguments that the engine's sources have (crate c_library).

macro_rules! combinations {
    ($($name:ident),*) => {
        mod c {
            extern "C" {
                $(pub fn $name(
                    arities: *const u64, arities_count: usize, first: *const u64, first_count: usize, second: *const u64, second_count: usize,
                    result: *mut u64, result_count: usize, work: *mut u64, work_count: usize, rows: *mut u64, pairs: *mut u64,
                ) -> u64;)*
                pub fn yindolve_check(arities: *const u64, arities_count: usize, words: *const u64, words_count: usize) -> u64;
                pub fn yindolve_regress(
                    arities: *const u64, arities_count: usize, words: *const u64, words_count: usize, truths: *const u64, truths_count: usize,
                    spans: *const u64, spans_count: usize, result: *mut u64, result_count: usize, work: *mut u64, work_count: usize, rows: *mut u64,
                ) -> u64;
                pub fn yindolve_free_parameters(
                    arities: *const u64, arities_count: usize, words: *const u64, words_count: usize, parameters: u64,
                    result: *mut u64, result_count: usize, work: *const u64, work_count: usize, rows: *mut u64,
                ) -> u64;
                pub fn yindolve_cut(
                    arities: *const u64, arities_count: usize, words: *const u64, words_count: usize,
                    result: *mut u64, result_count: usize, work: *mut u64, work_count: usize, row: *mut u64, edge: *mut u64, rows: *mut u64,
                ) -> u64;
                pub fn yindolve_value(
                    arities: *const u64, arities_count: usize, words: *const u64, words_count: usize, objects: u64,
                    constants: *const u64, constants_count: usize, facts: *const u64, facts_count: usize, value: *mut u64,
                ) -> u64;
                pub fn yindolve_run(text: *const u8, text_count: usize, answers: *mut u8, answers_count: usize, bytes: *mut u64, lines: *mut u64) -> u64;
            }
        }
        $(pub fn $name(arities: &[u64], first: &[u64], second: &[u64], result: &mut [u64], work: &mut [u64], rows: &mut u64, pairs: &mut u64) -> u64 {
            unsafe {
                c::$name(
                    arities.as_ptr(), arities.len(), first.as_ptr(), first.len(), second.as_ptr(), second.len(),
                    result.as_mut_ptr(), result.len(), work.as_mut_ptr(), work.len(), rows, pairs,
                )
            }
        })*
    };
}

combinations!(yindolve_sum_apart, yindolve_sum_shared, yindolve_product_apart, yindolve_product_shared, yindolve_max_apart, yindolve_max_shared);

pub fn yindolve_check(arities: &[u64], words: &[u64]) -> u64 {
    unsafe { c::yindolve_check(arities.as_ptr(), arities.len(), words.as_ptr(), words.len()) }
}

pub fn yindolve_regress(arities: &[u64], words: &[u64], truths: &[u64], spans: &[u64], result: &mut [u64], work: &mut [u64], rows: &mut u64) -> u64 {
    unsafe {
        c::yindolve_regress(
            arities.as_ptr(), arities.len(), words.as_ptr(), words.len(), truths.as_ptr(), truths.len(), spans.as_ptr(), spans.len(),
            result.as_mut_ptr(), result.len(), work.as_mut_ptr(), work.len(), rows,
        )
    }
}

pub fn yindolve_free_parameters(arities: &[u64], words: &[u64], parameters: u64, result: &mut [u64], work: &[u64], rows: &mut u64) -> u64 {
    unsafe {
        c::yindolve_free_parameters(
            arities.as_ptr(), arities.len(), words.as_ptr(), words.len(), parameters, result.as_mut_ptr(), result.len(), work.as_ptr(), work.len(), rows,
        )
    }
}

pub fn yindolve_cut(arities: &[u64], words: &[u64], result: &mut [u64], work: &mut [u64], row: &mut u64, edge: &mut u64, rows: &mut u64) -> u64 {
    unsafe {
        c::yindolve_cut(
            arities.as_ptr(), arities.len(), words.as_ptr(), words.len(), result.as_mut_ptr(), result.len(), work.as_mut_ptr(), work.len(), row, edge, rows,
        )
    }
}

pub fn yindolve_value(arities: &[u64], words: &[u64], objects: u64, constants: &[u64], facts: &[u64], value: &mut u64) -> u64 {
    unsafe {
        c::yindolve_value(
            arities.as_ptr(), arities.len(), words.as_ptr(), words.len(), objects, constants.as_ptr(), constants.len(), facts.as_ptr(), facts.len(), value,
        )
    }
}

pub fn yindolve_run(text: &[u8], answers: &mut [u8], bytes: &mut u64, lines: &mut u64) -> u64 {
    unsafe { c::yindolve_run(text.as_ptr(), text.len(), answers.as_mut_ptr(), answers.len(), bytes, lines) }
}
