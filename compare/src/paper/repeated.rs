//! Order 4: "Lowering refuses when two finished types normalise to the same name; the place is the row
//! of the first head, in lowering's order, whose name came before."

use std::collections::HashSet;

use super::state::State;
use crate::leaves::normalize_type_name;

impl State {
    /// The finished types in lowering's order, "simple ones before complex": the row of each head and
    /// its normalised name.
    pub fn type_names(&self) -> Vec<(u32, String)> {
        let named = |simple: bool| {
            let heads = self.finished().into_iter();
            let types = heads.filter(move |(_, rows)| match rows[0].tag {
                2 => false,
                tag => (tag == 3) == simple,
            });
            types.map(|(row, rows)| (row as u32, normalize_type_name(&rows[0].texts[0])))
        };
        named(true).chain(named(false)).collect()
    }

    /// The rows of all heads whose name came before, in lowering's order.
    pub fn repeated(&self) -> Vec<u32> {
        let mut before = HashSet::new();
        let again = self.type_names().into_iter();
        let again = again.filter(|(_, name)| !before.insert(name.clone()));
        again.map(|(row, _)| row).collect()
    }

    /// The place of 20; none where all names differ.
    pub fn first_repeated(&self) -> Option<u32> {
        self.repeated().first().copied()
    }

    /// The state without the finished types whose name came before.
    pub fn without_repeated(&self) -> State {
        let repeated: HashSet<u32> = self.repeated().into_iter().collect();
        let mut dropped = false;
        let mut kept = self.clone();
        let mut row = 0;
        kept.rows.retain(|at| {
            row += 1;
            if !at.is_child() {
                dropped = repeated.contains(&row);
            }
            !dropped
        });
        kept
    }
}
