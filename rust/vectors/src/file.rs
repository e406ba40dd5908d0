//! Numbers as the file has them, lowest byte first.

/// The bytes of the file so far.
#[derive(Default)]
pub struct File(pub Vec<u8>);

impl File {
    pub fn byte(&mut self, number: u8) {
        self.0.push(number);
    }

    pub fn short(&mut self, number: usize) {
        let number = u32::try_from(number).expect("a length or count below 2^32");
        self.0.extend(number.to_le_bytes());
    }

    pub fn long(&mut self, number: usize) {
        self.0.extend((number as u64).to_le_bytes());
    }

    pub fn float(&mut self, number: f64) {
        self.0.extend(number.to_le_bytes());
    }

    pub fn floats(&mut self, numbers: &[f64]) {
        numbers.iter().for_each(|&number| self.float(number));
    }

    pub fn longs(&mut self, numbers: &[u64]) {
        numbers
            .iter()
            .for_each(|number| self.0.extend(number.to_le_bytes()));
    }

    pub fn row_counts(&mut self, numbers: &[u32]) {
        numbers
            .iter()
            .for_each(|&number| self.short(number as usize));
    }
}
