//! The rivals in C, behind the same trait as the library and the second program.

use second::cases::Side;

/// A rival and the names of its calls in `peer.h`. Each gets slices with their own lengths, which is all that they ask.
macro_rules! peer {
    ($rival:ident: $set_up:ident, $open_block:ident, $open_event:ident, $post:ident, $close:ident,
     $close_with_scalers:ident, $finish:ident, $count:ident, $latch:ident, $reset:ident, $find:ident,
     $check:ident) => {
        #[rustfmt::skip]
        extern "C" {
            fn $set_up(settings: *const u64, n: usize, state: *mut u64, m: usize) -> u32;
            fn $open_block(state: *mut u64, m: usize, words: *mut u32, w: usize, number: u32, events: u32) -> u32;
            fn $open_event(state: *mut u64, m: usize, number: u32, time: u64) -> u32;
            fn $post(state: *mut u64, m: usize, store: *mut u16, s: usize, channel: u32, window: *const u16, n: usize)
                -> u32;
            fn $close(state: *mut u64, m: usize, store: *const u16, s: usize, words: *mut u32, w: usize) -> u32;
            fn $close_with_scalers(state: *mut u64, m: usize, store: *const u16, s: usize, words: *mut u32, w: usize)
                -> u32;
            fn $finish(state: *mut u64, m: usize, words: *mut u32, w: usize) -> u64;
            fn $count(state: *mut u64, m: usize, frames: *const u16, n: usize) -> u32;
            fn $latch(state: *mut u64, m: usize) -> u32;
            fn $reset(state: *mut u64, m: usize) -> u32;
            fn $find(settings: *const u64, n: usize, channel: u32, window: *const u16, len: usize, out: *mut u32,
                o: usize) -> u32;
            fn $check(bytes: *const u8, n: usize) -> u64;
        }

        pub struct $rival;

        #[rustfmt::skip]
        impl Side for $rival {
            fn set_up(&self, settings: &[u64], state: &mut [u64]) -> u32 {
                unsafe { $set_up(settings.as_ptr(), settings.len(), state.as_mut_ptr(), state.len()) }
            }
            fn open_block(&self, state: &mut [u64], words: &mut [u32], number: u32, events: u32) -> u32 {
                let (m, w) = (state.len(), words.len());
                unsafe { $open_block(state.as_mut_ptr(), m, words.as_mut_ptr(), w, number, events) }
            }
            fn open_event(&self, state: &mut [u64], number: u32, time: u64) -> u32 {
                unsafe { $open_event(state.as_mut_ptr(), state.len(), number, time) }
            }
            fn post(&self, state: &mut [u64], store: &mut [u16], channel: u32, window: &[u16]) -> u32 {
                let (m, s, n) = (state.len(), store.len(), window.len());
                unsafe { $post(state.as_mut_ptr(), m, store.as_mut_ptr(), s, channel, window.as_ptr(), n) }
            }
            fn close(&self, state: &mut [u64], store: &[u16], words: &mut [u32]) -> u32 {
                let (m, s, w) = (state.len(), store.len(), words.len());
                unsafe { $close(state.as_mut_ptr(), m, store.as_ptr(), s, words.as_mut_ptr(), w) }
            }
            fn close_with_scalers(&self, state: &mut [u64], store: &[u16], words: &mut [u32]) -> u32 {
                let (m, s, w) = (state.len(), store.len(), words.len());
                unsafe { $close_with_scalers(state.as_mut_ptr(), m, store.as_ptr(), s, words.as_mut_ptr(), w) }
            }
            fn finish(&self, state: &mut [u64], words: &mut [u32]) -> u64 {
                unsafe { $finish(state.as_mut_ptr(), state.len(), words.as_mut_ptr(), words.len()) }
            }
            fn count(&self, state: &mut [u64], frames: &[u16]) -> u32 {
                unsafe { $count(state.as_mut_ptr(), state.len(), frames.as_ptr(), frames.len()) }
            }
            fn latch(&self, state: &mut [u64]) -> u32 {
                unsafe { $latch(state.as_mut_ptr(), state.len()) }
            }
            fn reset(&self, state: &mut [u64]) -> u32 {
                unsafe { $reset(state.as_mut_ptr(), state.len()) }
            }
            fn find(&self, settings: &[u64], channel: u32, window: &[u16], out: &mut [u32]) -> u32 {
                let (n, len, o) = (settings.len(), window.len(), out.len());
                unsafe { $find(settings.as_ptr(), n, channel, window.as_ptr(), len, out.as_mut_ptr(), o) }
            }
            fn check(&self, bytes: &[u8]) -> u64 {
                unsafe { $check(bytes.as_ptr(), bytes.len()) }
            }
            fn next(&self, _: &mut [u32], _: &[u32], _: &mut [u64]) -> u64 {
                unimplemented!("no rival reads records")
            }
            fn samples(&self, _: &[u32], _: u32, _: u32, _: &mut [u16]) -> u64 {
                unimplemented!("no rival reads samples")
            }
            fn list(&self, _: &[u8], _: &mut [u8]) -> u64 {
                unimplemented!("no rival lists")
            }
        }
    };
}

peer!(Plain: plain_set_up, plain_open_block, plain_open_event, plain_post, plain_close, plain_close_with_scalers,
      plain_finish, plain_count, plain_latch, plain_reset, plain_find, plain_check);
peer!(Sse2: sse2_set_up, sse2_open_block, sse2_open_event, sse2_post, sse2_close, sse2_close_with_scalers,
      sse2_finish, sse2_count, sse2_latch, sse2_reset, sse2_find, sse2_check);

extern "C" {
    fn sse2_read(bytes: *const u8, n: usize) -> u64;
}

/// Reads all bytes: a limit of every check.
pub fn read(bytes: &[u8]) -> u64 {
    unsafe { sse2_read(bytes.as_ptr(), bytes.len()) }
}
