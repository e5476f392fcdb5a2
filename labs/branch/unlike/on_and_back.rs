    regs.go_on();
    if is_taken {
        if target % 4 != 0 {
            regs.set_pc(regs.pc().wrapping_sub(4));
            return Stop::Fault(Cause::TargetMisaligned);
        }
        regs.set_pc(target);
    }
    Stop::Next
