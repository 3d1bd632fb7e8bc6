//! By which half of their leaves two trees are split.

/// A half of the leaves by which trees with these nodes split cheaply: the leaves of a node, or of
/// one of the words. A node with leaves on both sides costs a rotation. What the halves cost in their
/// turn is estimated by their atoms, leaves that nothing tells apart.
pub fn best_half(nodes: &[u128], words: &[u128]) -> Option<u128> {
    let all = nodes.iter().fold(0, |all, node| all | node);
    let sets = || nodes.iter().chain(words).copied();
    let mut atoms = vec![all];
    for set in sets() {
        let parts = atoms.iter().flat_map(|atom| [atom & set, atom & !set]);
        atoms = parts.filter(|&part| part != 0).collect();
    }
    let size = |half: u128| atoms.iter().filter(|&atom| atom & half != 0).count();
    let cost = |half: &u128| {
        let is_mixed = |node: &&u128| *node & half != 0 && *node & !half != 0;
        let mixed = nodes.iter().filter(is_mixed).count();
        // n log n rotations, in quarters.
        let sizes = [size(*half), size(!half)].map(|size| size * size.pow(4).ilog2() as usize);
        8 * mixed + sizes[0] + sizes[1]
    };
    sets().filter(|&half| half != all).min_by_key(cost)
}

#[cfg(test)]
mod tests {
    use super::*;

    /// Chains over eight leaves in opposite order are cut near their middle: no leaf is put in order
    /// after the other.
    #[test]
    fn opposite_chains_are_halved() {
        let chain = |count: u32| (1u128 << count) - 1;
        let back = |count: u32| chain(count) << (8 - count);
        let nodes: Vec<u128> = (2..=8)
            .flat_map(|count| [chain(count), back(count)])
            .collect();
        let half = best_half(&nodes, &[]).expect("a half");
        assert!((3..=5).contains(&half.count_ones()), "{half:b}");
        assert_eq!(best_half(&[0b11], &[0b01, 0b10]), Some(0b01));
        assert_eq!(best_half(&[0b11], &[]), None);
    }
}
