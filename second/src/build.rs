//! Building tables: docs/RULES.md, 3.5 and 3.6.

use crate::bitmap;
use crate::layout::Layout;
use crate::machine::Machine;
use crate::refusal::Refusal;
use crate::set::{read_set, TagSet};

/// The numbers of a machine's slots, a slot for each state.
type Slots = Vec<Vec<u16>>;

/// The slots of a layout's machines of a set, by machine number.
fn machines_of(layout: Layout, set: &TagSet) -> Vec<Slots> {
    match layout {
        Layout::Split => (0..layout.machines())
            .map(|machine| slots_of(&Machine::bit(set, machine)))
            .collect(),
        Layout::Whole => vec![slots_of(&Machine::whole_byte(set))],
        Layout::Bitmap => vec![bitmap::slots(set)],
    }
}

/// A slot of a machine of next states is these, then the vector.
fn slots_of(machine: &Machine) -> Slots {
    let slots = machine.slots();
    slots
        .map(|(next, vector)| [next, &[vector]].concat())
        .collect()
}

/// What a building would write: every question that refuses is answered, and
/// nothing is written yet.
pub struct Plan {
    layout: Layout,
    machines: Vec<Slots>,
    tags: usize,
}

impl Plan {
    /// Set faults, then TABLE. There is a length for each of the layout's
    /// tables.
    pub fn new(layout: Layout, set: &[u8], lengths: &[usize]) -> Result<Plan, Refusal> {
        let set = read_set(set, layout.kinds())?;
        let machines = machines_of(layout, &set);
        // The lowest machine that is short of slots in its own table.
        for (number, machine) in machines.iter().enumerate() {
            let (table, _) = layout.home_of(number);
            if machine.len() > layout.slots(lengths[table]) {
                return Err(Refusal::Table {
                    machine: layout.name_of(number),
                    states: machine.len(),
                });
            }
        }
        let tags = set.tags().len();
        Ok(Plan {
            layout,
            machines,
            tags,
        })
    }

    /// The number of tags.
    pub fn tags(&self) -> usize {
        self.tags
    }

    /// Fills the slots of every table; they have the lengths that the plan was
    /// made for.
    pub fn write(&self, tables: &mut [&mut [u16]]) {
        let of_tables = self.machines.chunks(self.layout.machines_a_table());
        for (table, machines) in tables.iter_mut().zip(of_tables) {
            write_table(self.layout, machines, table);
        }
    }
}

/// Unused slots hold zeros, numbers beyond the last slot are left as they are.
fn write_table(layout: Layout, machines: &[Slots], table: &mut [u16]) {
    let s = layout.slots(table.len());
    let (slots, _beyond) = table.split_at_mut(s * layout.a_slot_each());
    slots.fill(0);
    for (in_table, machine) in machines.iter().enumerate() {
        for (state, slot) in machine.iter().enumerate() {
            let at = layout.slot_at(s, in_table, state);
            slots[at..at + slot.len()].copy_from_slice(slot);
        }
    }
}

/// Builds outside a desk, over as many tables as the layout has: gives the
/// number of tags.
pub fn build(layout: Layout, set: &[u8], tables: &mut [&mut [u16]]) -> Result<usize, Refusal> {
    let lengths: Vec<usize> = tables.iter().map(|table| table.len()).collect();
    let plan = Plan::new(layout, set, &lengths)?;
    plan.write(tables);
    Ok(plan.tags())
}
