//! The static library's calls, as include/himalowen.h declares them: a slice is a pointer and a length, an array a
//! pointer. Rust's references are never null, and those that may be written overlap nothing; the calls need no more.

use crate::SITE_PLACES;

mod exported {
    use super::SITE_PLACES;

    extern "C" {
        pub fn himalowen_check(
            file: *const u8,
            file_length: usize,
            choice: *const u32,
            choice_length: usize,
            reply: &mut [u64; 4],
        ) -> u32;

        pub fn himalowen_tight(
            file: *const u8,
            file_length: usize,
            choice: *const u32,
            choice_length: usize,
            junction: u32,
            reply: &mut [u64; 4],
        ) -> u32;

        pub fn himalowen_route(
            file: *const u8,
            file_length: usize,
            choice: *const u32,
            choice_length: usize,
            from: u32,
            to: u32,
            rows: *mut i32,
            rows_length: usize,
            reply: &mut [u64; 5],
        ) -> u32;

        pub fn himalowen_over_figure(
            file: *const u8,
            file_length: usize,
            choice: *const u32,
            choice_length: usize,
            figure: u32,
            reply: &mut [u64; 4],
        ) -> u32;

        pub fn himalowen_plan_rows(
            file: *const u8,
            file_length: usize,
            rows: *mut u32,
            rows_length: usize,
            reply: &mut [u64; 4],
        ) -> u32;

        pub fn himalowen_plan_cuts(
            file: *const u8,
            file_length: usize,
            shores: *mut u64,
            shores_length: usize,
            weights: *mut u32,
            weights_length: usize,
            levels: *mut i32,
            levels_length: usize,
            reply: &mut [u64; 4],
        ) -> u32;

        pub fn himalowen_with_without(
            file: *const u8,
            file_length: usize,
            with: *mut u32,
            with_length: usize,
            without: *mut u32,
            without_length: usize,
            reply: &mut [u64; 3],
        ) -> u32;

        pub fn himalowen_site_start(stock: u32, site: &mut [u32; SITE_PLACES], reply: &mut [u64; 2]) -> u32;

        pub fn himalowen_site_admit(
            file: *const u8,
            file_length: usize,
            site: &mut [u32; SITE_PLACES],
            reply: &mut [u64; 2],
        ) -> u32;
    }
}

pub fn check(file: &[u8], choice: &[u32]) -> [u64; 4] {
    let mut reply = [0; 4];
    unsafe {
        exported::himalowen_check(file.as_ptr(), file.len(), choice.as_ptr(), choice.len(), &mut reply);
    }
    reply
}

pub fn tight(file: &[u8], choice: &[u32], junction: u32) -> [u64; 4] {
    let mut reply = [0; 4];
    unsafe {
        exported::himalowen_tight(file.as_ptr(), file.len(), choice.as_ptr(), choice.len(), junction, &mut reply);
    }
    reply
}

pub fn route(file: &[u8], choice: &[u32], from: u32, to: u32, rows: &mut [i32]) -> [u64; 5] {
    let mut reply = [0; 5];
    unsafe {
        exported::himalowen_route(
            file.as_ptr(),
            file.len(),
            choice.as_ptr(),
            choice.len(),
            from,
            to,
            rows.as_mut_ptr(),
            rows.len(),
            &mut reply,
        );
    }
    reply
}

pub fn over_figure(file: &[u8], choice: &[u32], figure: u32) -> [u64; 4] {
    let mut reply = [0; 4];
    unsafe {
        exported::himalowen_over_figure(file.as_ptr(), file.len(), choice.as_ptr(), choice.len(), figure, &mut reply);
    }
    reply
}

pub fn plan_rows(file: &[u8], rows: &mut [u32]) -> [u64; 4] {
    let mut reply = [0; 4];
    unsafe {
        exported::himalowen_plan_rows(file.as_ptr(), file.len(), rows.as_mut_ptr(), rows.len(), &mut reply);
    }
    reply
}

pub fn plan_cuts(file: &[u8], shores: &mut [u64], weights: &mut [u32], levels: &mut [i32]) -> [u64; 4] {
    let mut reply = [0; 4];
    unsafe {
        exported::himalowen_plan_cuts(
            file.as_ptr(),
            file.len(),
            shores.as_mut_ptr(),
            shores.len(),
            weights.as_mut_ptr(),
            weights.len(),
            levels.as_mut_ptr(),
            levels.len(),
            &mut reply,
        );
    }
    reply
}

pub fn with_without(file: &[u8], with: &mut [u32], without: &mut [u32]) -> [u64; 3] {
    let mut reply = [0; 3];
    unsafe {
        exported::himalowen_with_without(
            file.as_ptr(),
            file.len(),
            with.as_mut_ptr(),
            with.len(),
            without.as_mut_ptr(),
            without.len(),
            &mut reply,
        );
    }
    reply
}

pub fn site_start(stock: u32, site: &mut [u32; SITE_PLACES]) -> [u64; 2] {
    let mut reply = [0; 2];
    unsafe {
        exported::himalowen_site_start(stock, site, &mut reply);
    }
    reply
}

pub fn site_admit(file: &[u8], site: &mut [u32; SITE_PLACES]) -> [u64; 2] {
    let mut reply = [0; 2];
    unsafe {
        exported::himalowen_site_admit(file.as_ptr(), file.len(), site, &mut reply);
    }
    reply
}
