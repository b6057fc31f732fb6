//! Lines of text: two hexadecimal digits for each byte.

/// What no digit stands for.
const NO_DIGIT: u8 = 0xff;

const VALUES: [u8; 256] = values();

const fn values() -> [u8; 256] {
    let mut table = [NO_DIGIT; 256];
    let mut i = 0;
    while i < 10 {
        table[b'0' as usize + i] = i as u8;
        i += 1;
    }
    i = 0;
    while i < 6 {
        table[b'a' as usize + i] = 10 + i as u8;
        table[b'A' as usize + i] = 10 + i as u8;
        i += 1;
    }
    table
}

const PAIRS: [[u8; 2]; 256] = pairs();

const fn pairs() -> [[u8; 2]; 256] {
    let digits = b"0123456789abcdef";
    let mut table = [[0; 2]; 256];
    let mut i = 0;
    while i < 256 {
        table[i] = [digits[i >> 4], digits[i & 15]];
        i += 1;
    }
    table
}

/// Reads a line into `bytes`, and says how many there are. None: it is empty, has an odd number of digits or another character, or has more bytes
/// than there is room for.
pub fn read_line(text: &[u8], bytes: &mut [u8]) -> Option<usize> {
    let length = text.len() / 2;
    if text.is_empty() || text.len() % 2 == 1 || length > bytes.len() {
        return None;
    }
    let mut seen = 0;
    for (byte, two) in bytes.iter_mut().zip(text.chunks_exact(2)) {
        let (high, low) = (VALUES[two[0] as usize], VALUES[two[1] as usize]);
        seen |= high | low;
        *byte = high << 4 | low & 15;
    }
    if seen == NO_DIGIT { None } else { Some(length) }
}

/// Lines that wait to be written.
#[derive(Default)]
pub struct Lines {
    text: Vec<u8>,
}

impl Lines {
    pub fn new() -> Lines {
        Lines::default()
    }

    pub fn text(&self) -> &[u8] {
        &self.text
    }

    pub fn len(&self) -> usize {
        self.text.len()
    }

    pub fn is_empty(&self) -> bool {
        self.text.is_empty()
    }

    pub fn clear(&mut self) {
        self.text.clear();
    }

    pub fn byte(&mut self, byte: u8) {
        self.text.extend_from_slice(&PAIRS[byte as usize]);
    }

    pub fn bytes(&mut self, bytes: &[u8]) {
        for &byte in bytes {
            self.byte(byte);
        }
    }

    /// A number of 64 bits, high byte first.
    pub fn number(&mut self, number: u64) {
        let mut digits = [0; 16];
        for (two, byte) in digits.chunks_exact_mut(2).zip(number.to_be_bytes()) {
            two.copy_from_slice(&PAIRS[byte as usize]);
        }
        self.text.extend_from_slice(&digits);
    }

    pub fn end(&mut self) {
        self.text.push(b'\n');
    }

    pub fn refusal(&mut self, number: u8) {
        self.byte(21);
        self.byte(number);
        self.end();
    }
}
