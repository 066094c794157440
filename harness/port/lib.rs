//! The port as Rust calls it: the functions of harness/c/persimmonjib.h, on slices.

mod boundary {
    extern "C" {
        pub fn pj_number(call: u64, image: *const u8, image_len: usize, x: f64, y: f64, answer: *mut u8, answer_len: usize) -> u64;
        pub fn pj_build(call: u64, image: *const u8, image_len: usize, answer: *mut u8, answer_len: usize) -> u64;
        pub fn pj_particle_step(
            particle: *const u8, particle_len: usize, j_n: f64, dt: f64, temp_k: f64, answer: *mut u8, answer_len: usize,
        ) -> u64;
        pub fn pj_cell_step(
            cell: *const u8, cell_len: usize, current_a: f64, dt: f64, temp_k: f64, answer: *mut u8, answer_len: usize,
        ) -> u64;
        pub fn pj_electrolyte_step(
            electrolyte: *const u8, electrolyte_len: usize, j_n_neg: f64, j_n_pos: f64, dt: f64, temp_k: f64, answer: *mut u8,
            answer_len: usize,
        ) -> u64;
        pub fn pj_dfn_step(cell: *const u8, cell_len: usize, current_a: f64, dt_s: f64, answer: *mut u8, answer_len: usize) -> u64;
        pub fn pj_simulate_discharge(
            cell: *const u8, cell_len: usize, current_a: f64, dt: f64, temp_k: f64, max_time_s: f64, rows: *mut f64, rows_len: usize,
            lowest: *mut f64, lowest_len: usize, answer: *mut u8, answer_len: usize,
        ) -> u64;
        pub fn pj_run_galvanostatic(
            cell: *const u8, cell_len: usize, current_a: f64, dt_s: f64, max_time_s: f64, rows: *mut f64, rows_len: usize,
            lowest: *mut f64, lowest_len: usize, answer: *mut u8, answer_len: usize,
        ) -> u64;
        pub fn pj_first_below(
            which: u64, rows: *const f64, rows_len: usize, lowest: *const f64, lowest_len: usize, count: usize, voltage: f64,
            answer: *mut u8, answer_len: usize,
        ) -> u64;
        pub fn pj_replay(
            cell: *const u8, cell_len: usize, text: *const u8, text_len: usize, temp_k: f64, rows: *mut f64, rows_len: usize,
            answer: *mut u8, answer_len: usize,
        ) -> u64;
        pub fn pj_cycle(
            cell: *const u8, cell_len: usize, phases: *const u8, phases_len: usize, count: usize, repeats: usize, budget: usize,
            dt: f64, temp_k: f64, rows: *mut f64, rows_len: usize, answer: *mut u8, answer_len: usize,
        ) -> u64;
        pub fn pj_solve_dense(
            a: *const f64, a_len: usize, b: *const f64, b_len: usize, n: usize, answer: *mut u8, answer_len: usize,
        ) -> u64;
    }
}

// A slice's pointer is never null, and a `&mut` slice overlaps no other: what the header asks of its caller.

pub fn number(call: u64, image: &[u8], [x, y]: [f64; 2], answer: &mut [u8]) -> u64 {
    unsafe { boundary::pj_number(call, image.as_ptr(), image.len(), x, y, answer.as_mut_ptr(), answer.len()) }
}

pub fn build(call: u64, image: &[u8], answer: &mut [u8]) -> u64 {
    unsafe { boundary::pj_build(call, image.as_ptr(), image.len(), answer.as_mut_ptr(), answer.len()) }
}

pub fn particle_step(particle: &[u8], [j_n, dt, temp_k]: [f64; 3], answer: &mut [u8]) -> u64 {
    unsafe { boundary::pj_particle_step(particle.as_ptr(), particle.len(), j_n, dt, temp_k, answer.as_mut_ptr(), answer.len()) }
}

pub fn cell_step(cell: &[u8], [current_a, dt, temp_k]: [f64; 3], answer: &mut [u8]) -> u64 {
    unsafe { boundary::pj_cell_step(cell.as_ptr(), cell.len(), current_a, dt, temp_k, answer.as_mut_ptr(), answer.len()) }
}

pub fn electrolyte_step(electrolyte: &[u8], [j_n_neg, j_n_pos, dt, temp_k]: [f64; 4], answer: &mut [u8]) -> u64 {
    let (image, answer_len) = (electrolyte, answer.len());
    unsafe { boundary::pj_electrolyte_step(image.as_ptr(), image.len(), j_n_neg, j_n_pos, dt, temp_k, answer.as_mut_ptr(), answer_len) }
}

pub fn dfn_step(cell: &[u8], [current_a, dt_s]: [f64; 2], answer: &mut [u8]) -> u64 {
    unsafe { boundary::pj_dfn_step(cell.as_ptr(), cell.len(), current_a, dt_s, answer.as_mut_ptr(), answer.len()) }
}

pub fn simulate_discharge(cell: &[u8], numbers: [f64; 4], rows: &mut [f64], lowest: &mut [f64], answer: &mut [u8]) -> u64 {
    let [current_a, dt, temp_k, limit] = numbers;
    let (cell, cell_len, rows_len, lowest_len, answer_len) = (cell.as_ptr(), cell.len(), rows.len(), lowest.len(), answer.len());
    let (rows, lowest, answer) = (rows.as_mut_ptr(), lowest.as_mut_ptr(), answer.as_mut_ptr());
    unsafe {
        boundary::pj_simulate_discharge(
            cell, cell_len, current_a, dt, temp_k, limit, rows, rows_len, lowest, lowest_len, answer, answer_len,
        )
    }
}

pub fn run_galvanostatic(cell: &[u8], numbers: [f64; 3], rows: &mut [f64], lowest: &mut [f64], answer: &mut [u8]) -> u64 {
    let [current_a, dt_s, limit] = numbers;
    let (cell, cell_len, rows_len, lowest_len, answer_len) = (cell.as_ptr(), cell.len(), rows.len(), lowest.len(), answer.len());
    let (rows, lowest, answer) = (rows.as_mut_ptr(), lowest.as_mut_ptr(), answer.as_mut_ptr());
    unsafe {
        boundary::pj_run_galvanostatic(cell, cell_len, current_a, dt_s, limit, rows, rows_len, lowest, lowest_len, answer, answer_len)
    }
}

pub fn first_below(which: u64, rows: &[f64], lowest: &[f64], count: usize, voltage: f64, answer: &mut [u8]) -> u64 {
    let (rows, rows_len, lowest, lowest_len) = (rows.as_ptr(), rows.len(), lowest.as_ptr(), lowest.len());
    unsafe {
        boundary::pj_first_below(which, rows, rows_len, lowest, lowest_len, count, voltage, answer.as_mut_ptr(), answer.len())
    }
}

pub fn replay(cell: &[u8], text: &[u8], temp_k: f64, rows: &mut [f64], answer: &mut [u8]) -> u64 {
    let (rows_len, answer_len) = (rows.len(), answer.len());
    let (rows, answer) = (rows.as_mut_ptr(), answer.as_mut_ptr());
    unsafe { boundary::pj_replay(cell.as_ptr(), cell.len(), text.as_ptr(), text.len(), temp_k, rows, rows_len, answer, answer_len) }
}

/// The counts are those of phases, repeats and steps.
pub fn cycle(cell: &[u8], phases: &[u8], counts: [usize; 3], [dt, temp_k]: [f64; 2], rows: &mut [f64], answer: &mut [u8]) -> u64 {
    let [count, repeats, budget] = counts;
    let (cell, cell_len, phases, phases_len) = (cell.as_ptr(), cell.len(), phases.as_ptr(), phases.len());
    let (rows_len, answer_len) = (rows.len(), answer.len());
    let (rows, answer) = (rows.as_mut_ptr(), answer.as_mut_ptr());
    unsafe {
        boundary::pj_cycle(cell, cell_len, phases, phases_len, count, repeats, budget, dt, temp_k, rows, rows_len, answer, answer_len)
    }
}

pub fn solve_dense(a: &[f64], b: &[f64], n: usize, answer: &mut [u8]) -> u64 {
    unsafe { boundary::pj_solve_dense(a.as_ptr(), a.len(), b.as_ptr(), b.len(), n, answer.as_mut_ptr(), answer.len()) }
}
