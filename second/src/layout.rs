//! The paper's table of blocks: for each block of fixed size its fields, each
//! with its bytes and its limits.

pub const A1: u8 = 0xA1;
pub const A2: u8 = 0xA2;
pub const A3: u8 = 0xA3;
pub const C1: u8 = 0xC1;
pub const C2: u8 = 0xC2;
pub const C3: u8 = 0xC3;
pub const C4: u8 = 0xC4;
pub const C5: u8 = 0xC5;
pub const C6: u8 = 0xC6;

#[derive(Clone, Copy, Debug)]
pub struct Field {
    pub width: usize,
    pub least: i128,
    pub most: i128,
}

const fn field(width: usize, least: i128, most: i128) -> Field {
    Field { width, least, most }
}

const KN: Field = field(2, 0, 30_000);

const SHIP: [Field; 4] = [
    field(4, 24_000, 400_000),
    field(4, 3_000, 70_000),
    field(4, 0, 20_000),
    field(1, 0, 1),
];

const ROW: [Field; 16] = [
    field(4, 100_000, 600_000_000),
    field(2, 500, 30_000),
    field(2, 0, 60_000),
    field(2, 0, 0),
    KN,
    KN,
    KN,
    KN,
    KN,
    KN,
    KN,
    KN,
    KN,
    KN,
    KN,
    KN,
];

const WEATHER: [Field; 5] = [
    field(4, 0, 300_000),
    field(2, 0, 60_000),
    field(2, 200, 1_000),
    field(2, 0, 600),
    field(2, 1, 600),
];

const ITEM: [Field; 2] = [field(4, 0, 600_000_000), field(2, 0, 60_000)];

const TANK: [Field; 5] = [
    field(4, 0, 600_000_000),
    field(2, 0, 60_000),
    field(2, 0, 1_000),
    field(2, 0, 2_000),
    field(4, 0, 100_000),
];

/// The fields of a block of fixed size; none for A3, C4 and unknown tags.
pub fn fields(tag: u8) -> Option<&'static [Field]> {
    match tag {
        A1 => Some(&SHIP),
        A2 => Some(&ROW),
        C1 | C6 => Some(&WEATHER),
        C2 => Some(&ITEM),
        C3 | C5 => Some(&TANK),
        _ => None,
    }
}

pub fn size_of(tag: u8) -> Option<usize> {
    fields(tag).map(|fields| fields.iter().map(|field| field.width).sum())
}

/// The values of a body of the right size, or none if one is outside its
/// limits. A tank with fill 0 and a mass is outside them too.
pub fn values(tag: u8, body: &[u8]) -> Option<Vec<i128>> {
    let mut rest = body;
    let mut values = Vec::new();
    for field in fields(tag)? {
        let (mine, others) = rest.split_at_checked(field.width)?;
        let value = mine
            .iter()
            .fold(0, |value, byte| value * 256 + i128::from(*byte));
        if value < field.least || value > field.most {
            return None;
        }
        values.push(value);
        rest = others;
    }
    if matches!(tag, C3 | C5) && values[2] == 0 && values[0] != 0 {
        return None;
    }
    Some(values)
}

#[cfg(test)]
mod tests {
    use super::*;

    #[test]
    fn sizes_of_the_table() {
        let sizes = [A1, A2, C1, C2, C3, C5, C6].map(size_of);
        assert_eq!(sizes, [13, 34, 12, 6, 14, 14, 12].map(Some));
        assert_eq!((size_of(A3), size_of(C4)), (None, None));
    }

    /// A body of a tank with these values.
    fn tank(values: [u32; 5]) -> Vec<u8> {
        let [mass, centre, fill, density, inertia] = values.map(u32::to_be_bytes);
        [&mass[..], &centre[2..], &fill[2..], &density[2..], &inertia].concat()
    }

    /// C6 has C1's fields, the deck edge angle and its limits among them.
    #[test]
    fn both_kinds_of_weather_have_the_same_limits() {
        let most = [300_000, 60_000, 1_000, 600, 600];
        let least = [0, 0, 200, 0, 1];
        for tag in [C1, C6] {
            let limits = fields(tag).unwrap_or_default();
            let widths: Vec<usize> = limits.iter().map(|field| field.width).collect();
            assert_eq!(widths, [4, 2, 2, 2, 2]);
            assert!(limits.iter().map(|field| field.least).eq(least));
            assert!(limits.iter().map(|field| field.most).eq(most));
        }
    }

    #[test]
    fn both_kinds_of_tanks_have_the_same_limits() {
        let most = [600_000_000, 60_000, 1_000, 2_000, 100_000];
        for tag in [C3, C5] {
            let taken = |tried: [u32; 5]| values(tag, &tank(tried));
            assert_eq!(taken(most), Some(most.map(i128::from).to_vec()));
            assert_eq!(taken([0; 5]), Some(vec![0; 5]));
            for field in 0..5 {
                let mut beyond = most;
                beyond[field] += 1;
                assert_eq!(taken(beyond), None);
            }
            for (mass, fill, allowed) in [(0, 0, true), (1, 0, false), (0, 1, true), (1, 1, true)] {
                assert_eq!(taken([mass, 0, fill, 0, 0]).is_some(), allowed);
            }
        }
    }
}
