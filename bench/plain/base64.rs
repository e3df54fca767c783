//! Base64 (RFC 4648): with padding for keys, digests and signatures, and base64url without it for drawn values.

const LETTERS: &[u8; 64] = b"ABCDEFGHIJKLMNOPQRSTUVWXYZabcdefghijklmnopqrstuvwxyz0123456789+/";
const URL_LETTERS: &[u8; 64] = b"ABCDEFGHIJKLMNOPQRSTUVWXYZabcdefghijklmnopqrstuvwxyz0123456789-_";

/// The number of each letter, and 255 of what is none.
const NUMBERS: [u8; 256] = {
    let mut numbers = [255; 256];
    let mut i = 0;
    while i < 64 {
        numbers[LETTERS[i] as usize] = i as u8;
        i += 1;
    }
    numbers
};

/// Puts the text of the bytes behind others, with padding.
pub fn encode(bytes: &[u8], out: &mut Vec<u8>) {
    for piece in bytes.chunks(3) {
        let group = piece.iter().fold(0u32, |group, byte| group << 8 | u32::from(*byte)) << (8 * (3 - piece.len()));
        for place in 0..4 {
            let letter = LETTERS[(group >> (18 - 6 * place)) as usize & 63];
            out.push(if place <= piece.len() { letter } else { b'=' });
        }
    }
}

/// The bytes of a text whose padding stands in full or not at all, and whose unused bits are zero.
pub fn decode(text: &[u8]) -> Option<Vec<u8>> {
    let letters = match text {
        [most @ .., b'=', b'='] if text.len() % 4 == 0 => most,
        [most @ .., b'='] if text.len() % 4 == 0 => most,
        all => all,
    };
    let mut bytes = Vec::with_capacity(letters.len() / 4 * 3 + 2);
    for piece in letters.chunks(4) {
        let mut group = 0u32;
        for letter in piece {
            let number = NUMBERS[usize::from(*letter)];
            if number == 255 {
                return None;
            }
            group = group << 6 | u32::from(number);
        }
        match piece.len() {
            4 => bytes.extend_from_slice(&[(group >> 16) as u8, (group >> 8) as u8, group as u8]),
            3 if group & 3 == 0 => bytes.extend_from_slice(&[(group >> 10) as u8, (group >> 2) as u8]),
            2 if group & 15 == 0 => bytes.push((group >> 4) as u8),
            _ => return None,
        }
    }
    Some(bytes)
}

/// The 32 characters of base64url of 24 bytes.
pub fn url_text(bytes: &[u8; 24]) -> [u8; 32] {
    let mut text = [0; 32];
    for (letters, piece) in text.chunks_exact_mut(4).zip(bytes.chunks_exact(3)) {
        let group = u32::from(piece[0]) << 16 | u32::from(piece[1]) << 8 | u32::from(piece[2]);
        for (place, letter) in letters.iter_mut().enumerate() {
            *letter = URL_LETTERS[(group >> (18 - 6 * place)) as usize & 63];
        }
    }
    text
}
