    if is_taken && target >> 2 << 2 != target {
        return Stop::Fault(Cause::TargetMisaligned);
    }
    let next = if is_taken { target >> 2 << 2 } else { regs.pc().wrapping_add(4) };
    regs.set_pc(next);
    Stop::Next
