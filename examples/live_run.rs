// A live run over libodb_batch, which answers every request with 204 in place of a service: docs/embedding.md.

#[repr(C)]
struct Run(*mut u8);

#[link(name = "odb_batch")]
unsafe extern "C" {
    fn odb_run_open(batch: *const u8, batch_size: usize, events: *const u8, events_size: usize, mode: u32, width: u32,
        run: &mut Run, text: *mut u8, text_size: usize, text_length: &mut usize, seed: u64) -> u32;
    fn odb_run_ready(run: &mut Run, positions: *mut u32, positions_size: usize, count: &mut usize) -> u32;
    fn odb_run_start(run: &mut Run, position: u32) -> u32;
    fn odb_run_report(run: &mut Run, position: u32, status: u32, headers: *const u8, headers_size: usize,
        body: *const u8, body_size: usize) -> u32;
    fn odb_run_finished(run: &mut Run) -> u32;
    fn odb_run_response(run: &mut Run, text: *mut u8, text_size: usize, text_length: &mut usize) -> u32;
    fn odb_run_close(run: Run);
}

/// Returns the status of a run and its response, whose length must be at most `size`.
pub fn answered(batch: &[u8], size: usize, seed: u64) -> (u32, Vec<u8>) {
    let (events, mut text, mut ready) = (br#"{"events":[]}"#, vec![0; size], vec![0; 10_000]);
    let (mut run, mut length, mut count) = (Run(std::ptr::null_mut()), 0, 0);
    let (from, to, none) = (batch.as_ptr(), text.as_mut_ptr(), [].as_ptr());
    let mut status = unsafe { odb_run_open(from, batch.len(), events.as_ptr(), events.len(), 0, 16, &mut run, to, size, &mut length, seed) };
    if status == 0 {
        while unsafe { odb_run_finished(&mut run) == 0 && odb_run_ready(&mut run, ready.as_mut_ptr(), 10_000, &mut count) == 0 } {
            for &position in &ready[..count] {
                unsafe { odb_run_start(&mut run, position) };
                unsafe { odb_run_report(&mut run, position, 204, none, 0, none, 0) };
            }
        }
        status = unsafe { odb_run_response(&mut run, to, size, &mut length) };
        unsafe { odb_run_close(run) };
    }
    text.truncate(length);
    (status, text)
}
