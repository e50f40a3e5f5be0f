//! Time laid out over a width, exact to the tick: one tick in a day is still one tick.

/// A moment, in ticks of a timescale that is not 0.
#[derive(Clone, Copy, Debug, PartialEq, Eq)]
pub struct Moment {
    pub ticks: i128,
    pub timescale: u64,
}

impl Moment {
    pub fn new(ticks: u64, timescale: u64) -> Moment {
        Moment { ticks: i128::from(ticks), timescale }
    }

    /// The last tick of another timescale that is not after it.
    pub fn in_ticks_of(self, timescale: u64) -> i128 {
        (self.ticks * i128::from(timescale)).div_euclid(i128::from(self.timescale))
    }
}

/// From one tick to a later one, over a width.
#[derive(Clone, Copy, Debug)]
pub struct Scale {
    pub from: i128,
    pub to: i128,
    pub timescale: u64,
    pub left: f64,
    pub width: f64,
}

const MICRO: i128 = 1_000_000;

impl Scale {
    pub fn span(&self) -> i128 {
        self.to - self.from
    }

    pub fn right(&self) -> f64 {
        self.left + self.width
    }

    /// Where a moment stands; it may stand outside.
    pub fn x(&self, at: Moment) -> f64 {
        // Below 2^98: ticks have 64 bits, timescales 32, spans are a few times as long.
        let from_start =
            at.ticks * i128::from(self.timescale) - self.from * i128::from(at.timescale);
        let ticks = from_start as f64 / at.timescale as f64;
        self.left + self.width * ticks / self.span() as f64
    }

    /// The same, at the edge if it stands outside.
    pub fn x_inside(&self, at: Moment) -> f64 {
        self.x(at).clamp(self.left, self.right())
    }

    pub fn tick(&self, ticks: i128) -> Moment {
        Moment { ticks, timescale: self.timescale }
    }

    /// Round seconds, so many at most, with their place.
    pub fn seconds(&self, most: usize) -> Vec<(f64, String)> {
        let timescale = i128::from(self.timescale);
        let (from, to) = (self.from * MICRO, self.to * MICRO);
        let step = step((to - from) / timescale, most);
        let first = -(-from).div_euclid(step * timescale);
        let times = (first..).map(|nth| nth * step).take_while(|time| time * timescale <= to);
        let micro = |time: i128| Moment { ticks: time, timescale: MICRO as u64 };
        times.map(|time| (self.x(micro(time)), label(time, step))).collect()
    }

    /// Round ticks, so many at most, with their place.
    pub fn ticks(&self, most: usize) -> Vec<(f64, String)> {
        let step = step(self.span(), most);
        let first = -(-self.from).div_euclid(step);
        let ticks = (first..).map(|nth| nth * step).take_while(|ticks| *ticks <= self.to);
        // A window may begin before tick 0; there is no such tick.
        let ticks = ticks.filter(|ticks| *ticks >= 0);
        ticks.map(|ticks| (self.x(self.tick(ticks)), ticks.to_string())).collect()
    }
}

/// The smallest of 1, 2, 5, 10, 20, .. that divides a span into so many parts at most.
fn step(span: i128, most: usize) -> i128 {
    let mut power = 1;
    loop {
        let fits = |times: &i128| span <= times * power * most.max(1) as i128;
        if let Some(times) = [1, 2, 5].iter().find(|times| fits(times)) {
            return times * power;
        }
        power *= 10;
    }
}

/// Millionths as seconds, with the decimals that the step asks for.
fn label(micro: i128, step: i128) -> String {
    let mut decimals = 6;
    let mut unit = 1;
    while decimals > 0 && step % (unit * 10) == 0 {
        unit *= 10;
        decimals -= 1;
    }
    let whole = micro / MICRO;
    if decimals == 0 {
        return whole.to_string();
    }
    format!("{whole}.{:0decimals$}", micro % MICRO / unit)
}

#[cfg(test)]
mod tests {
    use super::*;

    fn scale(from: i128, to: i128, timescale: u64) -> Scale {
        Scale { from, to, timescale, left: 100.0, width: 600.0 }
    }

    #[test]
    fn one_tick_is_seen_however_late() {
        let end = i128::from(u64::MAX);
        let scale = scale(end - 3, end, 90_000);
        assert_eq!(scale.x(Moment::new(u64::MAX - 2, 90_000)), 300.0);
        assert_eq!(scale.x(Moment::new(u64::MAX - 1, 90_000)), 500.0);
        assert_eq!(scale.x_inside(Moment::new(0, 1)), 100.0);
    }

    #[test]
    fn other_timescales() {
        assert_eq!(scale(0, 90_000, 90_000).x(Moment::new(24_000, 48_000)), 400.0);
        assert_eq!(Moment::new(1, 48_000).in_ticks_of(90_000), 1);
        assert_eq!(Moment { ticks: -1, timescale: 2 }.in_ticks_of(3), -2);
    }

    #[test]
    fn round_numbers() {
        let labels = |labels: Vec<(f64, String)>| {
            labels.into_iter().map(|(_, label)| label).collect::<Vec<_>>().join(" ")
        };
        assert_eq!(
            labels(scale(0, 360_000, 90_000).seconds(8)),
            "0.0 0.5 1.0 1.5 2.0 2.5 3.0 3.5 4.0"
        );
        assert_eq!(labels(scale(0, 360_000, 90_000).seconds(4)), "0 1 2 3 4");
        assert_eq!(labels(scale(90_001, 27_000_000, 90_000).seconds(6)), "50 100 150 200 250 300");
        assert_eq!(
            labels(scale(0, 27, 90_000).seconds(6)),
            "0.00000 0.00005 0.00010 0.00015 0.00020 0.00025 0.00030"
        );
        assert_eq!(labels(scale(-1, 2, 90_000).ticks(6)), "0 1 2");
        assert_eq!(labels(scale(179_999, 180_002, 90_000).ticks(6)), "179999 180000 180001 180002");
        assert_eq!(labels(scale(0, 1 << 66, 1).seconds(2)), "0 50000000000000000000");
    }

    #[test]
    fn a_span_of_less_than_a_millionth() {
        assert_eq!(scale(0, 1, 1_000_000_000).seconds(5).len(), 1);
    }
}
