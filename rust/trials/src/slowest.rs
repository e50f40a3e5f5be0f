//! `trials slowest`: inputs of at least 10 KiB, drawn ones and tracks with a
//! crowd of boxes in one container; lists those that take longest beside the reference.

use crate::bench::rivals;
use crate::drawn::Drawn;
use crate::judge::Judge;
use crate::tracks::crowded_in;
use maker::cases::Job;
use maker::node::{self, Step};
use reference::MAX_BOXES;

const LEAST_BYTES: usize = 10 << 10;
/// Of a call that ends sooner the call itself is most.
const LEAST_NANOSECONDS: f64 = 100.0;
const LISTED: usize = 20;
/// More than this is too slow.
const LIMIT: f64 = 1.5;
/// An input over this is timed again, so that a pause of the machine is not taken for it.
const SUSPECT: f64 = 1.3;

struct Timed {
    ratio: f64,
    right: f64,
    input: String,
}

pub fn slowest(tried: Judge, seed: u64, from: u64, cases: u64) -> Result<(), String> {
    let mut all = Vec::new();
    for job in Job::ALL {
        for number in from..from.saturating_add(cases) {
            let drawn = Drawn::make(job, seed, number);
            if drawn.case.bytes.len() >= LEAST_BYTES {
                all.push(timed(tried, drawn.name(), job, &drawn.case.bytes)?);
            }
        }
    }
    for path in node::containers(&maker::examples::track_t()) {
        for front in [true, false] {
            let bytes = node::bytes(&crowded_in(MAX_BOXES, &path, front));
            let name = format!("track, a crowd {} {}", where_in(front), spelled(&path));
            all.push(timed(tried, name, Job::Track, &bytes)?);
        }
    }
    all.retain(|timed| timed.right >= LEAST_NANOSECONDS);
    all.sort_by(|one, other| other.ratio.total_cmp(&one.ratio));
    for timed in all.iter().take(LISTED) {
        println!("{:.2} {}", timed.ratio, timed.input);
    }
    let over = all.iter().filter(|timed| timed.ratio > LIMIT).count();
    println!("{over} of {} inputs over {LIMIT}", all.len());
    Ok(())
}

fn timed(tried: Judge, name: String, job: Job, bytes: &[u8]) -> Result<Timed, String> {
    let measure = || rivals(tried, job, bytes);
    let named = |difference| format!("{name}: {difference}");
    let mut times = measure().map_err(named)?;
    for _ in 0..4 {
        if times.ratio() <= SUSPECT {
            break;
        }
        times = times.best(measure().map_err(named)?);
    }
    let ratio = times.ratio();
    let [own, right] = times.nanoseconds;
    let (size, number) = (bytes.len(), times.number);
    let input = format!("{name}: {size} bytes, number {number}, {own:.0} and {right:.0} ns");
    Ok(Timed { ratio, right, input })
}

fn where_in(front: bool) -> &'static str {
    if front {
        "at the front of"
    } else {
        "at the end of"
    }
}

fn spelled(path: &[Step]) -> String {
    let step = |(kind, nth): &Step| match nth {
        0 => String::from_utf8_lossy(kind).into_owned(),
        _ => format!("{} {nth}", String::from_utf8_lossy(kind)),
    };
    path.iter().map(step).collect::<Vec<_>>().join("/")
}
