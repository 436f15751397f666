//! Stands in for `itoa`: whole numbers written in decimal.
pub struct Buffer {
    bytes: [u8; 40],
}

impl Buffer {
    pub fn new() -> Buffer {
        Buffer { bytes: [0; 40] }
    }

    pub fn format(&mut self, mut n: u128) -> &str {
        let mut at = self.bytes.len();
        loop {
            at -= 1;
            self.bytes[at] = b'0' + (n % 10) as u8;
            n /= 10;
            if n == 0 {
                return std::str::from_utf8(&self.bytes[at..]).unwrap_or("");
            }
        }
    }
}
