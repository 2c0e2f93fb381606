//! Damage to what an entry is lent.

use zorambi_generate::tables::{extreme, other_count, other_number};
use zorambi_generate::Rng;

/// Damage of a sort from 0 to 7: to a schema's root or least value, to its table or count, or to the length of the
/// result table, which is to be `full`.
pub(crate) fn damage_schema(
    sort: usize,
    rng: &mut Rng,
    [root, least]: [&mut i32; 2],
    (table, count): (&mut Vec<i32>, &mut usize),
    (length, full): (&mut usize, usize),
) {
    match sort {
        0 => *root = other_number(rng, *root),
        1 => *least = other_number(rng, *least),
        2 => *count = other_count(rng, *count),
        3 => *length = rng.pick(&[0, 1, full / 2, full - 1, full - 1, full + 1]),
        4 => table.truncate(table.len().saturating_sub(rng.below(3))),
        5 => table.extend((0..rng.below(9)).map(|_| extreme(rng))),
        _ => {
            let at = rng.below(table.len());
            table[at] = other_number(rng, table[at]);
        }
    }
}
