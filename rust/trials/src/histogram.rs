//! How often each number was reached.

/// One more than the highest number.
const NUMBERS: usize = 30;

#[derive(Default)]
pub struct Histogram([u64; NUMBERS]);

impl Histogram {
    pub fn add(&mut self, number: u64) {
        self.0[number as usize] += 1;
    }

    /// Those of these numbers that were not reached.
    pub fn missed(&self, numbers: impl Iterator<Item = u64>) -> Vec<u64> {
        numbers.filter(|number| self.0[*number as usize] == 0).collect()
    }

    pub fn print(&self, job: &str) {
        println!("{job}, {} cases", self.0.iter().sum::<u64>());
        let seen = self.0.iter().enumerate().filter(|(_, times)| **times > 0);
        let seen: Vec<String> =
            seen.map(|(number, times)| format!("{number:>4}: {times:<8}")).collect();
        for line in seen.chunks(7) {
            println!("{}", line.concat().trim_end());
        }
    }
}
