//! The laws of the row getppid, each as the clause of a function with an empty body.
ghost use Rattle.parent_call.specs.Laws.{ParentIsTold, NobodyIsTold, ChangesA0Alone, WhoMayWaitIsTold, NewbornIsTold, OrphanIsTold};

/// A process that has a parent is told its pid.
pub fn parent_is_told()
    ensures { ParentIsTold }
{}

/// A process without one, as process 1, is told 0.
pub fn nobody_is_told()
    ensures { NobodyIsTold }
{}

/// The call is done at once, and changes the caller's a0 alone.
pub fn changes_a0_alone()
    ensures { ChangesA0Alone }
{}

/// Whoever sees a process as its child, and so may wait for it, is the one that it is told.
pub fn who_may_wait_is_told()
    ensures { WhoMayWaitIsTold }
{}

/// A process that fork has made is told who forked.
pub fn newborn_is_told()
    ensures { NewbornIsTold }
{}

/// Once its parent is gone, a process is told 1.
pub fn orphan_is_told()
    ensures { OrphanIsTold }
{}
