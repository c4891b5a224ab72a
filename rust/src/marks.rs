//! Holds the marks that a reading leaves on the rows: the bytes of uses and roles in types.

/// The use that a row not kept has.
const NO_USES: u16 = 65_535;

/// What a reading made of a row.
#[derive(Clone, Copy, Debug, PartialEq, Eq)]
pub enum Mark {
    /// Role 0: the row is a sum of kept rows, or a repeat of an earlier row.
    NotKept,
    /// Role 1: kept and not picked.
    Kept {
        /// How many rows not kept have this row in their set, repeats not counted.
        uses: u16,
    },
    /// Role 2: kept and picked, which happens under 0 and 7 only.
    Picked {
        /// How many rows not kept have this row in their set, repeats not counted.
        uses: u16,
    },
}

impl Mark {
    /// Document 01's role, 0 to 2.
    pub fn role(self) -> u8 {
        match self {
            Mark::NotKept => 0,
            Mark::Kept { .. } => 1,
            Mark::Picked { .. } => 2,
        }
    }

    /// Document 01's use: the count for a kept row, 65535 for another.
    pub fn uses(self) -> u16 {
        match self {
            Mark::NotKept => NO_USES,
            Mark::Kept { uses } | Mark::Picked { uses } => uses,
        }
    }

    /// Whether the row is picked and has no use: if it was misread, no other row tells.
    pub fn alone(self) -> bool {
        self == Mark::Picked { uses: 0 }
    }

    fn of(role: u8, uses: u16) -> Option<Self> {
        match role {
            0 => Some(Mark::NotKept),
            1 => Some(Mark::Kept { uses }),
            2 => Some(Mark::Picked { uses }),
            _ => None,
        }
    }
}

/// The uses that a reading left as big-endian pairs, by arrival number.
pub fn uses(pairs: &[u8]) -> impl Iterator<Item = u16> + '_ {
    pairs
        .chunks_exact(2)
        .map(|pair| u16::from_be_bytes([pair[0], pair[1]]))
}

/// The marks that a reading of m rows left in the first 2m bytes of uses and the first m roles.
///
/// They are in the order of arrival numbers, and end before a byte that no reading leaves as role.
pub fn marks<'a>(pairs: &'a [u8], roles: &'a [u8]) -> impl Iterator<Item = Mark> + 'a {
    uses(pairs)
        .zip(roles)
        .map_while(|(uses, &role)| Mark::of(role, uses))
}
