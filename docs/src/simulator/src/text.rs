//! Numbers and words as bytes.

/// Reads a number in base ten without leading zeros, at most 2^64 - 1.
pub fn read_number(word: &[u8]) -> Option<u64> {
    if word.is_empty() || (word[0] == b'0' && word.len() > 1) {
        return None;
    }
    word.iter().try_fold(0u64, |value, byte| match byte {
        b'0'..=b'9' => value.checked_mul(10)?.checked_add(u64::from(byte - b'0')),
        _ => None,
    })
}

pub fn put_number(out: &mut Vec<u8>, value: u64) {
    let mut digits = [0; 20];
    let mut first = digits.len();
    let mut rest = value;
    loop {
        first -= 1;
        digits[first] = b'0' + (rest % 10) as u8;
        rest /= 10;
        if rest == 0 {
            break;
        }
    }
    out.extend_from_slice(&digits[first..]);
}

/// Writes a sum, which might pass 64 bits if the world were wrong.
pub fn put_sum(out: &mut Vec<u8>, value: u128) {
    match u64::try_from(value) {
        Ok(value) => put_number(out, value),
        Err(_) => out.extend_from_slice(value.to_string().as_bytes()),
    }
}
