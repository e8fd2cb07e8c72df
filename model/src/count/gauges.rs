//! The cells of the gauges.

use super::cells::Cells;
use super::Details;
use crate::gauge::{late_above, Gauge, Health};
use crate::replay::{Answer, Line};
use crate::smcr::*;

const FURTHER: &[&str] = &[
    "gauge: line",
    "health: unheard",
    "health: steady",
    "health: late",
    "health: unheard though late is laid",
    "sample: the first",
    "sample: the second to the eighth",
    "sample: after the eighth",
    "sample: count above 8 laid",
    "sample: 0",
    "sample: 60,000",
    "sample: steady",
    "sample: late",
    "sample: steady after late",
    "sample: exactly 4 x the mean plus 20",
    "sample: one above 4 x the mean plus 20",
    "sample: late though the new mean would not say so",
    "sample: worst raised",
    "sample: worst kept",
    "sample: mean rounded",
    "sample: mean below zero",
    "sample: 4 x the mean is infinite",
    "sample: refused 17, 60,001",
    "link: down clears a gauge",
    "link: down again clears a gauge",
    "link: up keeps a gauge",
    "open: gauge kept",
];

pub(super) fn declare(cells: &mut Cells) {
    for name in FURTHER {
        cells.can(name.to_string());
    }
}

/// The refusals of a sample that hold, each judged on its own.
pub(super) fn holding(group: &Group, link: u8, milliseconds: u32) -> Vec<u8> {
    let mut holds = Vec::new();
    if !link_in_range(link) {
        holds.push(13);
    } else if group.link_down(link) {
        holds.push(6);
    }
    if Group::sample_too_long(milliseconds) {
        holds.push(17);
    }
    holds
}

/// What any line did to the gauges.
pub(super) fn count(
    cells: &mut Cells,
    line: &Line,
    answer: &Answer,
    before: &Details,
    after: &Group,
) {
    match (line, answer) {
        (Line::Gauge { .. }, _) => cells.hit("gauge: line"),
        (Line::Health { link }, Answer::Health(_, health)) => {
            let gauge = &before.gauges[usize::from(*link) - 1];
            cells.hit(match health {
                Health::Unheard => "health: unheard",
                Health::Steady(_) => "health: steady",
                Health::Late(..) => "health: late",
            });
            let unheard = *health == Health::Unheard;
            cells.hit_if(unheard && gauge.late, "health: unheard though late is laid");
        }
        (Line::Sample { link, milliseconds }, Answer::Health(..)) => {
            let index = usize::from(*link) - 1;
            let sample = f64::from(*milliseconds);
            count_sample(cells, sample, &before.gauges[index], &after.gauges[index]);
        }
        (Line::Sample { milliseconds, .. }, Answer::Refused(17)) => {
            cells.hit_if(*milliseconds == 60_001, "sample: refused 17, 60,001");
        }
        (Line::Link { link, up, .. }, Answer::Link(..)) => {
            let index = usize::from(*link) - 1;
            let held = before.gauges[index] != Gauge::default();
            let kept = after.gauges[index] == before.gauges[index];
            let active = before.links[index];
            cells.hit_if(held && !up && active, "link: down clears a gauge");
            cells.hit_if(held && !up && !active, "link: down again clears a gauge");
            cells.hit_if(held && *up && kept, "link: up keeps a gauge");
        }
        (Line::Open { opening }, Answer::Word(_)) => {
            let gauge = &after.gauges[usize::from(opening.link) - 1];
            cells.hit_if(*gauge != Gauge::default(), "open: gauge kept");
        }
        _ => {}
    }
}

fn count_sample(cells: &mut Cells, sample: f64, before: &Gauge, after: &Gauge) {
    cells.hit_if(sample == 0.0, "sample: 0");
    cells.hit_if(sample == 60_000.0, "sample: 60,000");
    cells.hit(match before.count {
        0 => "sample: the first",
        1..=7 => "sample: the second to the eighth",
        8 => "sample: after the eighth",
        _ => "sample: count above 8 laid",
    });
    cells.hit(if after.late {
        "sample: late"
    } else {
        "sample: steady"
    });
    if before.count == 0 {
        return;
    }
    cells.hit_if(before.late && !after.late, "sample: steady after late");
    let bound = late_above(before.mean);
    cells.hit_if(sample == bound, "sample: exactly 4 x the mean plus 20");
    cells.hit_if(
        sample == bound + 1.0,
        "sample: one above 4 x the mean plus 20",
    );
    cells.hit_if(
        after.late && sample <= late_above(after.mean),
        "sample: late though the new mean would not say so",
    );
    let raised = after.worst > before.worst;
    cells.hit_if(raised, "sample: worst raised");
    cells.hit_if(!raised && before.worst > sample, "sample: worst kept");
    // The last of the 52 bits is in use: the exact sum would hardly fit.
    cells.hit_if(after.mean.to_bits() % 2 == 1, "sample: mean rounded");
    cells.hit_if(after.mean < 0.0, "sample: mean below zero");
    cells.hit_if(bound.is_infinite(), "sample: 4 x the mean is infinite");
}
