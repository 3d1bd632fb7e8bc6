//! The bench sample of document 01 that P1 to P6 are about: a AND a against a, and the proof that
//! they agree.

/// Left and right list, five lines.
pub const LISTS: &str = "0101000101\n0200020002\n040004\n0101000001\n040002\n";

/// The lines of the proof.
pub const PROOF: [&str; 4] = [
    "11000500020002\n",
    "11000400080002\n",
    "11000A000B0001\n",
    "110009000C0003\n",
];
