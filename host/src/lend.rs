// Lends space to an exported function and takes what it hands over.
use crate::Refusal;

pub(crate) fn accepted(number: u8) -> Result<(), Refusal> {
    match Refusal::from_number(number) {
        None => Ok(()),
        Some(r) => Err(r),
    }
}

// At most `most` bytes: the call gets pointer and length of the space, and the place of the length. The space is not cleared before.
pub(crate) fn space(
    most: usize,
    call: impl FnOnce(*mut u8, usize, *mut u64) -> u8,
) -> Result<Vec<u8>, Refusal> {
    let mut out = Vec::with_capacity(most);
    let mut length = 0u64;
    accepted(call(out.as_mut_ptr(), most, &mut length))?;
    // SAFETY: there is room for `most` bytes, and a call that accepts has written the first `length` of
    // them, which are no more than it was lent.
    unsafe { out.set_len(most.min(length as usize)) };
    Ok(out)
}

// The same, to be handed out: no room is left behind the bytes.
pub(crate) fn bytes(
    most: usize,
    call: impl FnOnce(*mut u8, usize, *mut u64) -> u8,
) -> Result<Vec<u8>, Refusal> {
    let mut out = space(most, call)?;
    out.shrink_to_fit();
    Ok(out)
}

// Exactly N bytes.
pub(crate) fn array<const N: usize>(
    call: impl FnOnce(*mut u8, usize, *mut u64) -> u8,
) -> Result<[u8; N], Refusal> {
    let mut out = [0u8; N];
    let mut length = 0u64;
    accepted(call(out.as_mut_ptr(), N, &mut length))?;
    Ok(out)
}

// N numbers.
pub(crate) fn numbers<const N: usize>(
    call: impl FnOnce(*mut u64, usize) -> u8,
) -> Result<[u64; N], Refusal> {
    let mut fields = [0u64; N];
    accepted(call(fields.as_mut_ptr(), N))?;
    Ok(fields)
}
