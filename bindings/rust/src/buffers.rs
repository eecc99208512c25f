//! Calls that write to buffers.
use crate::Error;

/// Repeats a call until its buffers are long enough. Returns `None` if the call finds nothing.
pub(crate) fn with_buffers<const N: usize>(
    mut call: impl FnMut(&mut [Vec<u8>; N], &mut [usize; N]) -> u32,
) -> Result<Option<[Vec<u8>; N]>, Error> {
    let mut buffers = [const { Vec::new() }; N];
    let mut lens = [0; N];
    loop {
        match call(&mut buffers, &mut lens) {
            0 => {
                for (buffer, len) in buffers.iter_mut().zip(lens) {
                    buffer.truncate(len);
                }
                return Ok(Some(buffers));
            }
            5 => {
                for (buffer, len) in buffers.iter_mut().zip(lens) {
                    buffer.resize(buffer.len().max(len), 0);
                }
            }
            1 | 9 => return Ok(None),
            status => return Err(Error::of_status(status)),
        }
    }
}
