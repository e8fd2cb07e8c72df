//! Link gauges, 2026-10.

use model::gauge::{Gauge, Health};
use model::random::Random;
use model::replay::answer_all;
use model::smcr::*;

fn answers(input: &str) -> Vec<String> {
    String::from_utf8(answer_all(input.as_bytes()))
        .unwrap()
        .lines()
        .map(str::to_string)
        .collect()
}

fn group() -> Group {
    let mut group = Group::fresh(1, 8, 8, 1);
    group.link_change(2, true, &mut [0; 44 * 16]).unwrap();
    group
}

#[test]
fn exact_through_eight_samples() {
    // "State it as a whole number over 2,097,152": eight to the seventh.
    let whole = 2_097_152i64;
    for seed in 0..200 {
        let mut random = Random::new(seed);
        let mut group = group();
        let mut over = 0;
        for place in 0..8 {
            let sample = match seed {
                0 => 60_000 * (place % 2),
                1 => 60_000 * (1 - place % 2),
                2 => 1 - place.min(1),
                _ => random.below(60_001) as i64,
            };
            over = if place == 0 {
                sample * whole
            } else {
                assert_eq!((sample * whole - over) % 8, 0);
                over + (sample * whole - over) / 8
            };
            group.sample(2, sample as u32).unwrap();
            let gauge = group.gauges[1];
            assert_eq!(gauge.mean * whole as f64, over as f64);
            assert_eq!(i64::from(gauge.count), place + 1);
        }
        group.sample(2, 5).unwrap();
        assert_eq!(group.gauges[1].count, 8);
    }
}

#[test]
fn late_above_four_means_and_twenty() {
    for (mean, sample, late) in [
        (10, 60, false),
        (10, 61, true),
        (0, 20, false),
        (0, 21, true),
        (14_995, 60_000, false),
        (14_994, 60_000, true),
    ] {
        let mut group = group();
        assert_eq!(group.sample(2, mean), Ok(Health::Steady(f64::from(mean))));
        let health = group.sample(2, sample).unwrap();
        let new = f64::from(mean) + f64::from(sample - mean) / 8.0;
        let expected = if late {
            Health::Late(new, f64::from(sample))
        } else {
            Health::Steady(new)
        };
        assert_eq!(health, expected, "{mean} {sample}");
        // The worst stays, and the next sample decides again.
        assert!(matches!(group.sample(2, 0), Ok(Health::Steady(_))));
        assert_eq!(group.gauges[1].worst, f64::from(sample));
    }
    // The first sample is never late.
    assert_eq!(group().sample(2, 60_000), Ok(Health::Steady(60_000.0)));
}

#[test]
fn refusals() {
    let mut group = group();
    assert_eq!(group.sample(0, 60_001), Err(13));
    assert_eq!(group.sample(5, 0), Err(13));
    assert_eq!(group.sample(1, 60_001), Err(6));
    assert_eq!(group.sample(2, 60_001), Err(17));
    assert_eq!(group.sample(2, u32::MAX), Err(17));
    assert_eq!(group.gauges, [Gauge::default(); 4]);
    assert!(group.sample(2, 60_000).is_ok());
    // A group of wrong sizes has gauges all the same.
    let mut wrong = Group::fresh(0, 0, 3, 7);
    wrong.links[3] = true;
    assert!(wrong.sample(4, 1).is_ok());
}

#[test]
fn what_clears_a_gauge() {
    let mut group = group();
    group.sample(2, 7).unwrap();
    let heard = group.gauges[1];
    group.open(&Opening::at_base_0(1, 5, 6, 2, 8)).unwrap();
    assert_eq!(group.gauges[1], heard);
    group.link_change(2, true, &mut [0; 44 * 16]).unwrap();
    assert_eq!(group.gauges[1], heard);
    group.link_change(1, false, &mut [0; 44 * 16]).unwrap();
    assert_eq!(group.gauges[1], heard);
    group.link_change(2, false, &mut [0; 44 * 16]).unwrap();
    assert_eq!(group.gauges[1], Gauge::default());
    // Down already: what was handed in is cleared too.
    group.gauges[1] = heard;
    group.link_change(2, false, &mut [0; 44 * 16]).unwrap();
    assert_eq!(group.gauges[1].health(), Health::Unheard);
}

#[test]
fn gauges_handed_in() {
    let mut group = group();
    let mut laid = |mean: f64, worst: f64, count: u8, late: bool, sample: u32| {
        group.gauges[1] = Gauge {
            mean,
            worst,
            count,
            late,
        };
        group.sample(2, sample).unwrap();
        group.gauges[1]
    };
    // Count 0 is a first sample whatever else stands there; above 8 becomes 8.
    let first = laid(9.0, 9_999.0, 0, true, 3);
    assert_eq!(
        (first.mean, first.worst, first.count, first.late),
        (3.0, 3.0, 1, false)
    );
    assert_eq!(laid(9.0, 9.0, 255, false, 9).count, 8);
    assert_eq!(laid(9.0, 9.0, 9, false, 9).count, 8);
    assert_eq!(laid(9.0, 9.0, 7, false, 9).count, 8);
    // 4 x the mean past the largest double: nothing is above it.
    assert!(!laid(f64::MAX, 0.0, 3, false, 60_000).late);
    assert!(laid(f64::MIN, 0.0, 3, false, 0).late);
    assert_eq!(laid(f64::MIN, -1.0, 3, false, 0).worst, 0.0);
}

#[test]
fn replay_lines() {
    let zeros = "0000000000000000 0000000000000000 0 0";
    let lines = answers(
        "link 1 1\nhealth 1\nsample 1 10\nhealth 1\nsample 1 61\nhealth 1\nhealth 2\n\
         gauge 2 BFF0000000000000 7FEFFFFFFFFFFFFF 255 1\nhealth 2\ntable\ngroup 1 8 8\ntable\n",
    );
    let (mean, worst) = ("4030600000000000", "404E800000000000");
    assert_eq!(
        lines[..9],
        [
            "link count 0 out -",
            "health unheard",
            "sample steady 4024000000000000",
            "health steady 4024000000000000",
            &format!("sample late {mean} {worst}"),
            &format!("health late {mean} {worst}"),
            "health unheard",
            "gauge",
            "health late BFF0000000000000 7FEFFFFFFFFFFFFF",
        ]
    );
    assert_eq!(
        lines[10..15],
        [
            "links 1 0 0 0",
            &format!("gauge 1 {mean} {worst} 2 1"),
            "gauge 2 BFF0000000000000 7FEFFFFFFFFFFFFF 255 1",
            &format!("gauge 3 {zeros}"),
            &format!("gauge 4 {zeros}"),
        ]
    );
    for link in 1..=4 {
        assert_eq!(lines[20 + link], format!("gauge {link} {zeros}"));
    }
    for line in [
        "health 0",
        "health 5",
        "health",
        "sample 1",
        "sample 256 1",
        "sample 1 4294967296",
        "gauge 5 0000000000000000 0000000000000000 0 0",
        "gauge 1 7FF0000000000000 0000000000000000 0 0",
        "gauge 1 0000000000000000 FFF8000000000000 0 0",
        "gauge 1 000000000000000 0000000000000000 0 0",
        "gauge 1 00000000000000000 0000000000000000 0 0",
        "gauge 1 0000000000000000 0000000000000000 256 0",
        "gauge 1 0000000000000000 0000000000000000 0 2",
    ] {
        assert_eq!(answers(line), ["bad line"], "{line:?}");
    }
}
