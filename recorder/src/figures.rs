//! Figures that the recorder's thread keeps: times from a message's coming to its being durable.
//!
//! (A histogram of the crate `prometheus` has bounds that are fixed beforehand, and each of its observations is an atomic write. Here
//! one is wanted for times from a microsecond to a day, which is emptied at each question; Debian 12 packages none.)

/// Times in units of 100 ns, in boxes that are an eighth wide: what stands in one is right to an eighth.
#[derive(Clone, Debug)]
pub struct Times {
    boxes: [u64; Times::BOXES],
    count: u64,
    most: u64,
}

impl Times {
    const BOXES: usize = 8 * 49;

    fn place(time: u64) -> usize {
        if time < 8 {
            return time as usize;
        }
        let high = 63 - time.leading_zeros() as usize;
        (8 * (high - 2) + (time >> (high - 3)) as usize % 8).min(Times::BOXES - 1)
    }

    /// The least time of a box.
    fn least(place: usize) -> u64 {
        if place < 8 { place as u64 } else { (8 + place as u64 % 8) << (place / 8 - 1) }
    }

    pub fn add(&mut self, time: u64) {
        self.boxes[Times::place(time)] += 1;
        self.count += 1;
        self.most = self.most.max(time);
    }

    /// The time below which so many of a thousand are, in microseconds.
    pub fn below(&self, of_a_thousand: u64) -> u64 {
        let wanted = (self.count * of_a_thousand).div_ceil(1000);
        let mut seen = 0;
        for (place, count) in self.boxes.iter().enumerate() {
            seen += count;
            if seen >= wanted && seen > 0 {
                return Times::least(place + 1).min(self.most.max(1)) / 10;
            }
        }
        0
    }

    pub fn most(&self) -> u64 {
        self.most / 10
    }

    pub fn count(&self) -> u64 {
        self.count
    }
}

impl Default for Times {
    fn default() -> Times {
        Times { boxes: [0; Times::BOXES], count: 0, most: 0 }
    }
}

/// The service's own memory in KiB, as the system counts it.
pub fn own_memory() -> u64 {
    let status = std::fs::read_to_string("/proc/self/status").unwrap_or_default();
    status.lines().find_map(|it| it.strip_prefix("RssAnon:")?.split_whitespace().next()?.parse().ok()).unwrap_or(0)
}

#[cfg(test)]
mod tests {
    use super::*;

    #[test]
    fn each_time_is_in_its_box() {
        for time in (0..5000).chain([1 << 20, (1 << 30) + 12345, 1 << 47, (1 << 48) - 1]) {
            let place = Times::place(time);
            assert!(Times::least(place) <= time && time < Times::least(place + 1), "{time} in {place}");
        }
        assert_eq!(Times::place(u64::MAX), Times::BOXES - 1);
    }

    #[test]
    fn parts_of_a_thousand() {
        let mut it = Times::default();
        assert_eq!(it.below(990), 0);
        (1..=1000).for_each(|ms| it.add(10_000 * ms));
        assert!((437_500..=562_500).contains(&it.below(500)), "{}", it.below(500));
        assert!((990_000..=1_000_000).contains(&it.below(990)), "{}", it.below(990));
        assert_eq!((it.most(), it.count()), (1_000_000, 1000));
    }
}
