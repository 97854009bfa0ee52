//! Files that are evaluated, and the reports stated for them.

use crate::annex;
use crate::sheet::FieldSheet;
use crate::Example;

pub fn marked() -> Vec<Example> {
    vec![
        Example::new(
            "example",
            "document 01's example",
            with_x_and_h(126, 133).file(),
            "XY WITHIN 2355 2361\nH WITHIN 2486 2488\nPASS\n",
        ),
        Example::new(
            "k5_xy_beyond",
            "K5: the example with x 127",
            with_x_and_h(127, 133).file(),
            "XY BEYOND 2374 2361\nH WITHIN 2486 2488\nFAIL\n",
        ),
        Example::new(
            "k6_h_beyond",
            "K6: the example with h 134",
            with_x_and_h(126, 134).file(),
            "XY WITHIN 2355 2361\nH BEYOND 2505 2488\nFAIL\n",
        ),
        Example::new(
            "k7_all_offsets_seven",
            "K7: every offset 7, so every sum is 0",
            all_seven().file(),
            "XY WITHIN 0 2361\nH WITHIN 0 2488\nPASS\n",
        ),
        Example::new(
            "k10_largest_offsets",
            "K10: offsets of 100,000 and -100,000 accepted; the largest sums there are",
            largest_offsets().file(),
            "XY BEYOND 14956477 1180855\nH BEYOND 10575826 1244245\nFAIL\n",
        ),
    ]
}

/// Of annex A's series three times over, wherever it passes the screening.
const ANNEX_A_REPORT: &str = "XY WITHIN 7452 17712\nH WITHIN 6331 31106\nPASS\n";

pub fn measured() -> Vec<Example> {
    vec![
        Example::new(
            "annex_b",
            "annex B of document 003, all 30 readings",
            annex_b().file(),
            "XY WITHIN 6350 17712\nH WITHIN 9900 31106\nPASS\n",
        ),
        Example::new(
            "annex_a_thrice",
            "annex A of document 003, its series three times over",
            annex_a_thrice().file(),
            ANNEX_A_REPORT,
        ),
    ]
}

pub fn at_the_bounds() -> Vec<Example> {
    vec![
        Example::new(
            "xy_at_bound",
            "x offsets 2, -53, 111: 40·P is exactly 22,341·sigma²",
            with_offsets(0, [2, -53, 111]).file(),
            "XY WITHIN 2361 2361\nH WITHIN 0 2488\nPASS\n",
        ),
        Example::new(
            "xy_beyond_equal_figures",
            "x offsets 2, -126, -20: beyond though both figures show equal",
            with_offsets(0, [2, -126, -20]).file(),
            "XY BEYOND 2361 2361\nH WITHIN 0 2488\nFAIL\n",
        ),
        Example::new(
            "h_at_bound",
            "h offsets 2, -76, 104: 10·Qh is exactly 6,201·sigma²",
            with_offsets(2, [2, -76, 104]).file(),
            "XY WITHIN 0 2361\nH WITHIN 2488 2488\nPASS\n",
        ),
        Example::new(
            "h_beyond_equal_figures",
            "h offsets 0, -132, -29: beyond though both figures show equal",
            with_offsets(2, [0, -132, -29]).file(),
            "XY WITHIN 0 2361\nH BEYOND 2488 2488\nFAIL\n",
        ),
    ]
}

pub fn at_the_screening_limits() -> Vec<Example> {
    vec![
        Example::new(
            "k1_distance_at_limit",
            "K1: d 530 passes the screening",
            FieldSheet::still().moved(2, 3, 2, [530, 0, 0]).file(),
            "XY BEYOND 9908 2361\nH WITHIN 0 2488\nFAIL\n",
        ),
        Example::new(
            "k2_height_at_limit",
            "K2: d 883 passes the screening",
            FieldSheet::still().moved(2, 3, 2, [0, 0, 883]).file(),
            "XY WITHIN 0 2361\nH BEYOND 16508 2488\nFAIL\n",
        ),
        Example::new(
            "annex_a_at_limit",
            "annex A three times over, s_xy 59: d 206 (K3) passes the screening",
            annex_a_thrice().with_stated(2, 59).file(),
            ANNEX_A_REPORT,
        ),
    ]
}

pub fn with_x_and_h(x: i64, h: i64) -> FieldSheet {
    FieldSheet::still().moved(1, 1, 1, [x, 0, h])
}

/// Annex A has one series only, so its file is short.
pub fn annex_a() -> FieldSheet {
    FieldSheet {
        stated: stated(annex::ANNEX_A_NOMINAL),
        points: annex::ANNEX_A_POINTS,
        readings: std::array::from_fn(|place| annex::ANNEX_A.get(place).map(units)),
    }
}

/// Annex A's series in the place of all three.
pub fn annex_a_thrice() -> FieldSheet {
    let series = annex::ANNEX_A;
    FieldSheet {
        readings: std::array::from_fn(|place| Some(units(&series[place % series.len()]))),
        ..annex_a()
    }
}

fn annex_b() -> FieldSheet {
    FieldSheet {
        stated: stated(annex::ANNEX_B_NOMINAL),
        points: annex::ANNEX_B_POINTS,
        readings: annex::ANNEX_B.map(|millimetres| Some(units(&millimetres))),
    }
}

fn stated([distance, height]: [i64; 2]) -> [i64; 6] {
    let [s_xy, s_h, sigma_xy, sigma_h] = annex::ANNEX_DEVIATIONS;
    [distance, height, s_xy, s_h, sigma_xy, sigma_h]
}

fn units(millimetres: &[i64; 3]) -> [i64; 3] {
    millimetres.map(|length| length * 10)
}

/// Offsets on one axis in the first three sets of point 1.
fn with_offsets(axis: usize, offsets: [i64; 3]) -> FieldSheet {
    let mut sheet = FieldSheet::still();
    for (set, offset) in (1..).zip(offsets) {
        let mut by = [0; 3];
        by[axis] = offset;
        sheet = sheet.moved(1, set, 1, by);
    }
    sheet
}

fn all_seven() -> FieldSheet {
    let mut sheet = FieldSheet::still();
    sheet.readings = sheet
        .readings
        .map(|reading| Some(reading?.map(|length| length + 7)));
    sheet
}

/// Both points of a set move together, so that no set is suspect.
fn largest_offsets() -> FieldSheet {
    let mut sheet = FieldSheet::still();
    sheet.stated[4..].fill(10_000);
    for (place, reading) in sheet.readings.iter_mut().enumerate() {
        let by = if place < 16 { 100_000 } else { -100_000 };
        *reading = reading.map(|reading| reading.map(|length| length + by));
    }
    sheet
}
