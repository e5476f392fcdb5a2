//! A rule of who wakes that somebody changed, and the law that a case shows to be false with it.
#![tactic(auto)]

ghost use Rattle.lost_wake_up.specs.Rule.{Fails};

/// With the changed rule, the law on one event is false.
pub fn law_fails()
    ensures { Fails }
{}
