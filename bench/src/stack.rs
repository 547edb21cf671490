//! How many bytes of stack a call takes: the stack of a thread is painted, the
//! calls are made, and the lowest byte that is no longer paint is found.

use crate::images::Images;
use rewind::call;
use std::hint::black_box;
use std::thread;

const PAINT: u8 = 0xa5;
const STACK: usize = 2 << 20;
/// So much below this function's own frame is painted, but for what is next to
/// it, where the painting itself may stand.
const PAINTED: usize = 1 << 20;
const LEFT_OUT: usize = 1024;

/// The most of these requests, put to the net one after the other; a hundred
/// bytes or two are the frames of the callers here.
pub fn stack_of_calls(images: &Images, requests: &[u8]) -> usize {
    let (images, requests) = (images.clone(), requests.to_vec());
    let thread = thread::Builder::new().stack_size(STACK);
    let measured = thread.spawn(move || measure(&images, &requests));
    measured
        .expect("a thread")
        .join()
        .expect("a thread that ends")
}

#[inline(never)]
fn measure(images: &Images, requests: &[u8]) -> usize {
    let mark = black_box(0u8);
    let here = &raw const mark as usize;
    let (first, second) = (images.clone(), images.clone());
    // What is looked up once only, by the loader, is looked up here.
    make_calls(first, requests);
    for at in here - PAINTED..here - LEFT_OUT {
        // SAFETY: below this frame, in a stack that is twice as large as what
        // is painted of it; nothing lies there yet.
        unsafe { (at as *mut u8).write_volatile(PAINT) };
    }
    make_calls(second, requests);
    let touched = (here - PAINTED..here - LEFT_OUT)
        // SAFETY: as above; every byte of it was written.
        .find(|&at| unsafe { (at as *const u8).read_volatile() } != PAINT);
    here - touched.unwrap_or(here - LEFT_OUT)
}

#[inline(never)]
fn make_calls(mut images: Images, requests: &[u8]) {
    for request in requests.chunks(6) {
        black_box(call(&images.script, &mut images.net, request));
    }
}
