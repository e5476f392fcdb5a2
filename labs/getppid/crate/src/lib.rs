//! The call getppid: its row, the laws of the row, and the code that does it.
#![tactic(auto)]

ghost use Rattle.std.specs.Prelude.{◌≡◌, ◌<◌};
ghost use Rattle.xk_base.specs.declared.limits.TheConstants.{NPROC};
ghost use Rattle.proc_table.specs.Slots.{parent_at, IsHeld};
ghost use Rattle.proc_table.specs.declared.process.Call.{Call};
ghost use Rattle.kernel_spec.specs.views.View.{View};
ghost use Rattle.kernel_spec.specs.steps.Own.{Called};
ghost use Rattle.parent_call.specs.Asker.{or_none};
ghost use Rattle.parent_call.specs.Row.{getppid};

pub mod laws;

use proc_table::Table;

/// The call getppid of the process in a slot: the answer is the one that its row has.
pub fn getppid(table: &Table, slot: usize) -> i64
    requires within { slot < NPROC }
    requires held { IsHeld table.now slot }
    ensures { (c : Call) (v : View)
        → (getppid c (record { view = v; parent = or_none (parent_at table.now slot) })).answer
        ≡ Called c.number result }
{
    let Some(parent) = table.parent(slot) else {
        return 0;
    };
    i64::from(parent.number())
}
