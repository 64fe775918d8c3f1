//! The limits of some plans, computed by hand from the formulas:
//! N = writes + 5, N' = repeat + 4 * patience + waiting + inactivity + 2 * hold + 2 * pause + N + 14.

use super::{Plan, comeback_limit, start_up_limit};

/// `pump.json` at the Linux controller with `--retry 5`; the same with two records; that with `--patience 5` and `--retry 1`.
/// Each has its writes, patience, waiting, hold, inactivity, repeat, pause, N, N' and the seconds of N'.
const ROWS: [([u32; 9], &str); 3] = [
    (
        [
            0, 320_000, 1_920_000, 96, 1_920_000, 32_000, 160_000, 5, 5_472_211,
        ],
        "171.007",
    ),
    (
        [
            2, 320_000, 1_920_000, 96, 1_920_000, 32_000, 160_000, 7, 5_472_213,
        ],
        "171.007",
    ),
    (
        [
            2, 160_000, 160_000, 96, 1_920_000, 32_000, 32_000, 7, 2_816_213,
        ],
        "88.007",
    ),
];

#[test]
fn the_limits_of_plans() {
    for (row, seconds) in ROWS {
        let plan = Plan {
            writes: row[0],
            patience: row[1],
            waiting: row[2],
            hold: row[3],
            inactivity: row[4],
            repeat: row[5],
            pause: row[6],
        };
        assert_eq!(start_up_limit(plan), u64::from(row[7]));
        assert_eq!(comeback_limit(plan), u64::from(row[8]));
        assert_eq!(format!("{:.3}", f64::from(row[8]) / 32_000.0), seconds);
    }
}
