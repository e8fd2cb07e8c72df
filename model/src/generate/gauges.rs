//! Lists for the gauges: sequences of samples, gauges that are laid, edges.

use super::List;
use crate::gauge::{late_above, Gauge};
use crate::random::Random;
use crate::replay::Line;

fn gauge(mean: f64, worst: f64, count: u8, late: bool) -> Gauge {
    Gauge {
        mean,
        worst,
        count,
        late,
    }
}

/// Sequences from the first sample on, and late at exactly its bound.
pub fn exhaust(list: &mut List, random: &mut Random) {
    list.comment("gauges: exact through eight samples, then rounded");
    list.group(1, 8);
    list.add(Line::Health { link: 1 });
    list.all_links_up();
    let sequences: [&[u32]; 8] = [
        &[0, 0, 0, 0, 0, 0, 0, 0, 0],
        &[
            60_000, 60_000, 60_000, 60_000, 60_000, 60_000, 60_000, 60_000, 60_000,
        ],
        &[0, 60_000, 0, 60_000, 0, 60_000, 0, 60_000, 0, 60_000],
        &[60_000, 0, 0, 0, 0, 0, 0, 0, 0, 0, 0, 0],
        &[
            1, 0, 0, 0, 0, 0, 0, 0, 0, 0, 0, 0, 0, 0, 0, 0, 0, 0, 0, 0, 0, 0,
        ],
        &[
            59_999, 1, 59_998, 3, 59_997, 5, 59_993, 7, 59_989, 11, 59_983, 13,
        ],
        &[
            7, 11, 13, 17, 19, 23, 29, 31, 37, 41, 43, 47, 53, 59, 61, 67, 71,
        ],
        &[10, 60, 61, 10, 10, 10, 200, 10, 300, 0, 0],
    ];
    for (place, samples) in sequences.iter().enumerate() {
        let link = place as u8 % 4 + 1;
        list.link(link, false);
        list.link(link, true);
        for &milliseconds in *samples {
            list.sample(link, milliseconds);
        }
        list.add(Line::Health { link });
    }
    for _ in 0..90 {
        list.sample(1, random.below(60_001) as u32);
    }
    list.table();
    list.comment("gauges: late at 4 x the mean plus 20, and one above");
    for mean in [0u32, 1, 2, 10, 1_000, 14_994, 14_995, 14_996, 60_000] {
        for more in [0, 1] {
            list.link(2, false);
            list.link(2, true);
            list.sample(2, mean);
            list.sample(2, (4 * mean + 20 + more).min(60_001));
            list.sample(2, mean);
            list.add(Line::Health { link: 2 });
        }
    }
    list.comment("gauges: the bounds of a sample, the links");
    list.group(1, 8);
    for link in [0, 1, 4, 5, 255] {
        for milliseconds in [0, 60_000, 60_001, 65_536, u32::MAX] {
            list.sample(link, milliseconds);
        }
    }
    list.link(3, true);
    for milliseconds in [60_001, 60_000, 65_536, 65_536 + 5, u32::MAX, 0] {
        list.sample(3, milliseconds);
    }
    for link in 1..=4 {
        list.add(Line::Health { link });
    }
    // Up again keeps it, an open and a TEST LINK keep it, down clears it.
    list.link(3, true);
    list.open(1, 5, 6, 3, 8);
    let mut bytes = vec![0x07, 0x2C, 0, 0x80];
    bytes.resize(44, 0);
    list.link_message(3, bytes);
    list.table();
    list.gauge(1, gauge(2.5, 7.0, 3, true));
    list.link(3, false);
    list.add(Line::Health { link: 3 });
    list.add(Line::Health { link: 1 });
    list.link(1, false);
    list.add(Line::Health { link: 1 });
    list.gauge(1, gauge(2.5, 7.0, 0, true));
    list.add(Line::Health { link: 1 });
    list.link(1, true);
    list.add(Line::Health { link: 1 });
    list.sample(1, 9);
    list.table();
}

/// A finite double, often at an edge.
fn double(random: &mut Random) -> f64 {
    let edge = *random.pick(&[
        0.0,
        -0.0,
        f64::MAX,
        f64::MIN,
        f64::MIN_POSITIVE,
        -f64::MIN_POSITIVE,
        5e-324,
        -5e-324,
        0.1,
        -0.1,
        -5.0,
        -20.0,
        59_999.999_999_999_99,
        60_000.0,
        1e300,
        -1e300,
        4.5e307,
        9_007_199_254_740_993.0,
        1.0 / 3.0,
    ]);
    match random.below(4) {
        0 | 1 => edge,
        2 => random.below(60_001) as f64 / 2_097_152.0 * random.below(2_097_153) as f64,
        _ => loop {
            let any = f64::from_bits(random.draw());
            if any.is_finite() {
                break any;
            }
        },
    }
}

fn any_gauge(random: &mut Random) -> Gauge {
    gauge(
        double(random),
        double(random),
        *random.pick(&[0, 1, 2, 7, 8, 9, 200, 255]),
        random.chance(1, 2),
    )
}

/// Gauges laid with any numbers, samples at the bound that they give, and pairs
/// of refusals.
pub fn hostile(list: &mut List, random: &mut Random) {
    list.group(2, 12);
    list.all_links_up();
    for _ in 0..60 {
        let link = random.between(1, 4) as u8;
        let laid = any_gauge(random);
        list.gauge(link, laid);
        let bound = late_above(laid.mean).clamp(0.0, 60_001.0) as u32;
        let near = [bound, bound + 1, bound.saturating_sub(1)];
        for _ in 0..random.between(1, 3) {
            let milliseconds = match random.below(4) {
                0 => *random.pick(&[0, 1, 60_000, 60_001]),
                1 => random.below(60_001) as u32,
                _ => *random.pick(&near),
            };
            list.sample(link, milliseconds);
        }
        match random.below(8) {
            0 => list.table(),
            1 => {
                list.add(Line::Health { link });
            }
            2 => {
                list.link(link, false);
                list.add(Line::Health { link });
                list.link(link, true);
            }
            3 => {
                list.open(1, 5, 6, link, 8);
                list.abort(1);
                list.free(1);
            }
            _ => {}
        }
    }
    // Refusals together; a group of wrong sizes has gauges too.
    list.group_of(0, 0, 0);
    list.link(2, true);
    let laid = any_gauge(random);
    list.gauge(1, laid);
    for link in [0, 1, 2, 5, 255] {
        for milliseconds in [60_000, 60_001, u32::MAX] {
            list.sample(link, milliseconds);
        }
    }
    list.table();
}

/// One sample of a link that answers within some tens of milliseconds, and now
/// and then much later.
pub fn act(list: &mut List, random: &mut Random) {
    let link = random.between(1, 4) as u8;
    let milliseconds = match random.below(40) {
        0 => random.below(60_001),
        1 => random.below(70_000),
        2 => random.between(90, 400) as u64,
        3..=6 => random.below(120),
        _ => random.between(4, 40) as u64,
    };
    match random.below(30) {
        0 => {
            list.add(Line::Health { link });
        }
        _ => {
            list.sample(link, milliseconds as u32);
        }
    }
}
