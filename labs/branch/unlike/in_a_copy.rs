    let mut after = *regs;
    let mut stop = Stop::Next;
    if !is_taken {
        after.go_on();
    } else if target % 4 == 0 {
        after.set_pc(target);
    } else {
        stop = Stop::Fault(Cause::TargetMisaligned);
    }
    *regs = after;
    stop
