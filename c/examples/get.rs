// Fetches a URL, and prints what it ended with: rustc -L /usr/local/lib get.rs
use std::{env, ptr};

type Handle = *mut u8;

#[repr(C)]
struct How(u32, u32, u32, u32);

#[repr(C)]
#[derive(Default)]
struct Message(u32, u32, u32, u32);

#[repr(C)]
#[derive(Default)]
struct End(u32, u32, u32, u32, u64);

#[repr(C)]
struct Descriptor(i32, i16, i16);

#[link(name = "mx")]
unsafe extern "C" {
    fn mx_multi_open(history: u32, max_connects: u32, at: &mut Handle) -> u32;
    fn mx_multi_close(multi: Handle);
    fn mx_multi_add(
        multi: Handle,
        handle: u32,
        method: *const u8,
        method_len: usize,
        url: *const u8,
        url_len: usize,
        fields: *const u8,
        fields_len: usize,
        body: *const u8,
        body_len: usize,
        how: &How,
        ticket: &mut u32,
        refused: &mut u32,
    ) -> u32;
    fn mx_multi_perform(multi: Handle, running: &mut u32) -> u32;
    fn mx_multi_fd(multi: Handle) -> i32;
    fn mx_multi_timeout(multi: Handle) -> i64;
    fn mx_multi_info_read(multi: Handle, message: &mut Message, outcome: &mut Handle) -> u32;
    fn mx_outcome_end(outcome: Handle, end: &mut End) -> u32;
    fn mx_outcome_close(outcome: Handle);
    fn poll(descriptors: *mut Descriptor, count: u64, wait_ms: i32) -> i32;
}

fn main() {
    let (url, get) = (env::args().nth(1).expect("no URL"), "GET");
    let (mut multi, mut outcome) = (ptr::null_mut(), ptr::null_mut());
    let (mut ticket, mut refused, mut running) = (0, 27, 1);
    let (how, mut message, mut end) = (How(0, 30000, 10, 0), Message::default(), End::default());
    unsafe {
        assert_eq!(mx_multi_open(1024, 4, &mut multi), 0);
        let code = mx_multi_add(
            multi,
            1,
            get.as_ptr(),
            get.len(),
            url.as_ptr(),
            url.len(),
            get.as_ptr(),
            0,
            get.as_ptr(),
            0,
            &how,
            &mut ticket,
            &mut refused,
        );
        assert_eq!(code, 0, "refused with {refused}");
        while running > 0 {
            mx_multi_perform(multi, &mut running);
            let wait = if running == 0 {
                0
            } else {
                mx_multi_timeout(multi)
            };
            poll(
                &mut Descriptor(mx_multi_fd(multi), 1, 0),
                1,
                i32::try_from(wait).unwrap_or(60000),
            );
        }
        assert_eq!(mx_multi_info_read(multi, &mut message, &mut outcome), 0);
        mx_outcome_end(outcome, &mut end);
        println!("code {}, status {}, {} bytes", end.0, end.1, end.4);
        mx_outcome_close(outcome);
        mx_multi_close(multi);
    }
}
