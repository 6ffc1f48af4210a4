//! The numbers of refusal in words (docs/refusals.md).

/// What a number of refusal means.
pub fn meaning(number: u8) -> &'static str {
    match number {
        0 => "accepted",
        1 => "short sheet: it ends before a count or figure that is due",
        2 => "wrong count: a section's count is not the table's, or a move's sheet has the other form",
        3 => "figure: one is beyond its range",
        4 => "order: CT or CLX is not above the one before",
        5 => "too steep: CLK changes by more than a quarter of CLX between two points",
        6 => "crossed: CMIN is not below CMAX, or SMIN not below SMAX",
        7 => "trailing: bytes after the last section",
        8 => "station: not 1 to 247",
        9 => "bad reading: ELEC beyond ±19,660,800 steps, TEMP beyond ±13,107,200, or integrity byte above 1",
        10 => "no reading since start or RST",
        11 => "no snapshot taken",
        12 => "short buffer",
        13 => "not for us: length, checksum, station, or a broadcast read",
        14 => "function: not 3 or 16",
        15 => "address: odd, or not twice a listed register",
        16 => "value: length, quantity, byte count, a read-only register, or an unfit value",
        17 => "unfit copy: a sheet with the figures of the waiting copy would be refused",
        18 => "corner refused: one of the four readings would be 9, bad reading",
        19 => "buffers: the output or the scratch is too short",
        20 => "probe: the resistance is below 803,063 or above 1,573,251, in 0.0001 ohm",
        _ => "no such number",
    }
}
