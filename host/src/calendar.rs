//! Days after 1 January 2000, which a sheet counts in (paper 02, Change 6), and dates of the calendar.

use model::Identity;

fn length(year: i64, month: i64) -> i64 {
    let leap = year % 4 == 0 && (year % 100 != 0 || year % 400 == 0);
    match month {
        2 => 28 + i64::from(leap),
        4 | 6 | 9 | 11 => 30,
        _ => 31,
    }
}

/// The date of a day, as 2026-11-16. A sheet has no day below 0 or above 65,535, which is in 2179.
pub fn date(day: i64) -> String {
    let (mut year, mut month, mut left) = (2000, 1, day);
    while left >= length(year, month) {
        left -= length(year, month);
        (year, month) = if month == 12 { (year + 1, 1) } else { (year, month + 1) };
    }
    format!("{year}-{month:02}-{:02}", left + 1)
}

/// The day of such a date of the years 2000 to 2999.
pub fn day(date: &str) -> Option<i64> {
    let digits = |part: &str, n: usize| part.len() == n && part.bytes().all(|b| b.is_ascii_digit());
    let parts: Vec<&str> = date.split('-').collect();
    let [y, m, d] = parts[..] else { return None };
    if !digits(y, 4) || !digits(m, 2) || !digits(d, 2) {
        return None;
    }
    let (year, month, of_month): (i64, i64, i64) = (y.parse().ok()?, m.parse().ok()?, d.parse().ok()?);
    if !(2000..3000).contains(&year) || !(1..=12).contains(&month) || !(1..=length(year, month)).contains(&of_month) {
        return None;
    }
    let months = (2000..year).flat_map(|year| (1..=12).map(move |month| (year, month)));
    let before: i64 =
        months.chain((1..month).map(|month| (year, month))).map(|(year, month)| length(year, month)).sum();
    Some(before + of_month - 1)
}

/// An identity in words.
pub fn shown(Identity { serial, day }: Identity) -> String {
    format!("serial {serial}, day {day} ({})", date(day))
}

#[cfg(test)]
mod tests {
    use super::*;

    /// By another calendar's count: leap days of 2000 and 2004, none in 2100, and the last day of a sheet.
    const TABLE: [(i64, &str); 12] = [
        (0, "2000-01-01"),
        (30, "2000-01-31"),
        (59, "2000-02-29"),
        (60, "2000-03-01"),
        (365, "2000-12-31"),
        (366, "2001-01-01"),
        (1_520, "2004-02-29"),
        (9_816, "2026-11-16"),
        (36_524, "2099-12-31"),
        (36_583, "2100-02-28"),
        (36_584, "2100-03-01"),
        (65_535, "2179-06-06"),
    ];

    #[test]
    fn days_and_dates() {
        for (days, on) in TABLE {
            assert_eq!((date(days).as_str(), day(on)), (on, Some(days)));
        }
        for days in (0..=65_535).step_by(7) {
            assert_eq!(day(&date(days)), Some(days));
        }
        assert_eq!(shown(Identity { serial: 7, day: 60 }), "serial 7, day 60 (2000-03-01)");
        let none = ["", "2026", "2026-11", "2026-11-16-1", "1999-12-31", "2026-13-01", "2026-00-01", "2026-02-29"];
        assert_eq!(none.map(day), [None; 8]);
        assert_eq!(["2100-02-29", "2026-11-00", "2026-11-31", "2026-1-16", "+026-11-16"].map(day), [None; 5]);
    }
}
