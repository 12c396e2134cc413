// The check of a batch over libodb_batch: docs/embedding.md.

#[link(name = "odb_batch")]
unsafe extern "C" {
    fn odb_check_as(batch: *const u8, batch_size: usize, form: u32, text: *mut u8, text_size: usize, text_length: &mut usize, seed: u64) -> u32;
}

/// Returns the status of a check and its text. No line of a check is longer than 128 bytes.
pub fn check(batch: &[u8], seed: u64) -> (u32, Vec<u8>) {
    let (mut text, mut length) = (vec![0; 128], 0);
    let status = unsafe { odb_check_as(batch.as_ptr(), batch.len(), 0, text.as_mut_ptr(), text.len(), &mut length, seed) };
    text.truncate(length);
    (status, text)
}
