//! The library's side: the fifteen calls of `include/fadc250.h`.

use second::cases::Side;

extern "C" {
    fn fadc250_set_up(settings: *const u64, n: usize, state: *mut u64, m: usize) -> u32;
    fn fadc250_open_block(
        state: *mut u64,
        m: usize,
        words: *mut u32,
        w: usize,
        number: u32,
        events: u32,
    ) -> u32;
    fn fadc250_open_event(state: *mut u64, m: usize, number: u32, time: u64) -> u32;
    fn fadc250_post(
        state: *mut u64,
        m: usize,
        store: *mut u16,
        s: usize,
        channel: u32,
        window: *const u16,
        n: usize,
    ) -> u32;
    fn fadc250_close(
        state: *mut u64,
        m: usize,
        store: *const u16,
        s: usize,
        words: *mut u32,
        w: usize,
    ) -> u32;
    fn fadc250_close_with_scalers(
        state: *mut u64,
        m: usize,
        store: *const u16,
        s: usize,
        words: *mut u32,
        w: usize,
    ) -> u32;
    fn fadc250_finish(state: *mut u64, m: usize, words: *mut u32, w: usize) -> u64;
    fn fadc250_count(state: *mut u64, m: usize, frames: *const u16, n: usize) -> u32;
    fn fadc250_latch(state: *mut u64, m: usize) -> u32;
    fn fadc250_reset(state: *mut u64, m: usize) -> u32;
    fn fadc250_find(
        settings: *const u64,
        n: usize,
        channel: u32,
        window: *const u16,
        len: usize,
        out: *mut u32,
        o: usize,
    ) -> u32;
    fn fadc250_check(bytes: *const u8, n: usize) -> u64;
    fn fadc250_next(
        scan: *mut u32,
        k: usize,
        words: *const u32,
        w: usize,
        record: *mut u64,
        r: usize,
    ) -> u64;
    fn fadc250_samples(
        words: *const u32,
        w: usize,
        place: u32,
        pairs: u32,
        samples: *mut u16,
        s: usize,
    ) -> u64;
    fn fadc250_list(bytes: *const u8, n: usize, text: *mut u8, t: usize) -> u64;
}

pub struct Library;

// Each call gets slices with their own lengths, which is all that the header asks.
impl Side for Library {
    fn set_up(&self, settings: &[u64], state: &mut [u64]) -> u32 {
        unsafe {
            fadc250_set_up(settings.as_ptr(), settings.len(), state.as_mut_ptr(), state.len())
        }
    }
    fn open_block(&self, state: &mut [u64], words: &mut [u32], number: u32, events: u32) -> u32 {
        unsafe {
            fadc250_open_block(
                state.as_mut_ptr(),
                state.len(),
                words.as_mut_ptr(),
                words.len(),
                number,
                events,
            )
        }
    }
    fn open_event(&self, state: &mut [u64], number: u32, time: u64) -> u32 {
        unsafe { fadc250_open_event(state.as_mut_ptr(), state.len(), number, time) }
    }
    fn post(&self, state: &mut [u64], store: &mut [u16], channel: u32, window: &[u16]) -> u32 {
        unsafe {
            fadc250_post(
                state.as_mut_ptr(),
                state.len(),
                store.as_mut_ptr(),
                store.len(),
                channel,
                window.as_ptr(),
                window.len(),
            )
        }
    }
    fn close(&self, state: &mut [u64], store: &[u16], words: &mut [u32]) -> u32 {
        unsafe {
            fadc250_close(
                state.as_mut_ptr(),
                state.len(),
                store.as_ptr(),
                store.len(),
                words.as_mut_ptr(),
                words.len(),
            )
        }
    }
    fn close_with_scalers(&self, state: &mut [u64], store: &[u16], words: &mut [u32]) -> u32 {
        unsafe {
            fadc250_close_with_scalers(
                state.as_mut_ptr(),
                state.len(),
                store.as_ptr(),
                store.len(),
                words.as_mut_ptr(),
                words.len(),
            )
        }
    }
    fn finish(&self, state: &mut [u64], words: &mut [u32]) -> u64 {
        unsafe { fadc250_finish(state.as_mut_ptr(), state.len(), words.as_mut_ptr(), words.len()) }
    }
    fn count(&self, state: &mut [u64], frames: &[u16]) -> u32 {
        unsafe { fadc250_count(state.as_mut_ptr(), state.len(), frames.as_ptr(), frames.len()) }
    }
    fn latch(&self, state: &mut [u64]) -> u32 {
        unsafe { fadc250_latch(state.as_mut_ptr(), state.len()) }
    }
    fn reset(&self, state: &mut [u64]) -> u32 {
        unsafe { fadc250_reset(state.as_mut_ptr(), state.len()) }
    }
    fn find(&self, settings: &[u64], channel: u32, window: &[u16], out: &mut [u32]) -> u32 {
        unsafe {
            fadc250_find(
                settings.as_ptr(),
                settings.len(),
                channel,
                window.as_ptr(),
                window.len(),
                out.as_mut_ptr(),
                out.len(),
            )
        }
    }
    fn check(&self, bytes: &[u8]) -> u64 {
        unsafe { fadc250_check(bytes.as_ptr(), bytes.len()) }
    }
    fn next(&self, scan: &mut [u32], words: &[u32], record: &mut [u64]) -> u64 {
        unsafe {
            fadc250_next(
                scan.as_mut_ptr(),
                scan.len(),
                words.as_ptr(),
                words.len(),
                record.as_mut_ptr(),
                record.len(),
            )
        }
    }
    fn samples(&self, words: &[u32], place: u32, pairs: u32, samples: &mut [u16]) -> u64 {
        unsafe {
            fadc250_samples(
                words.as_ptr(),
                words.len(),
                place,
                pairs,
                samples.as_mut_ptr(),
                samples.len(),
            )
        }
    }
    fn list(&self, bytes: &[u8], text: &mut [u8]) -> u64 {
        unsafe { fadc250_list(bytes.as_ptr(), bytes.len(), text.as_mut_ptr(), text.len()) }
    }
}
