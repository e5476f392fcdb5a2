    // The contract: whether the row faults, and the pc after it.
    fn asked_of(pc: u64, is_taken: bool, target: u64) -> (bool, u64) {
        if !is_taken {
            return (false, pc.wrapping_add(4));
        }
        if target % 4 != 0 {
            return (true, pc);
        }
        (false, target)
    }

    fn play_one(rt: &HostRuntime, pc: u64, is_taken: bool, target: u64) -> bool {
        let mut mine = Regs::new(pc);
        mine.write(Reg::new(5), 7);
        let mut its = mine;
        let _ = println!(*rt; "case: the pc is {pc:#x}; is_taken is {is_taken}, target is {target:#x}");
        let came = STUDENT(&mut mine, is_taken, target);
        let (faults, wanted) = asked_of(pc, is_taken, target);
        let asked = if faults { Stop::Fault(Cause::TargetMisaligned) } else { Stop::Next };
        its.set_pc(wanted);
        let now = mine.pc();
        if came != asked {
            let _ = println!(*rt; "before: the pc is {pc:#x}; is_taken is {is_taken}, target is {target:#x}\nclause: stop\nasked: {asked:?}\ncame: {came:?}");
            return false;
        }
        if now != wanted {
            let _ = println!(*rt; "before: the pc is {pc:#x}; is_taken is {is_taken}, target is {target:#x}\nclause: regs\nasked: the pc is {wanted:#x} then\ncame: it is {now:#x}");
            return false;
        }
        if mine != its {
            let _ = println!(*rt; "before: the pc is {pc:#x}; is_taken is {is_taken}, target is {target:#x}\nclause: regs\nasked: x1 to x31 stay\ncame: one of them changed");
            return false;
        }
        true
    }

    #[test]
    fn plays(rt: HostRuntime) {
        let mut cases = 0;
        for pc in [0, 4, 4096, 0xffff_ffff_ffff_fffc] {
            for is_taken in [false, true] {
                for target in 0..17 {
                    assert!(rt; play_one(&rt, pc, is_taken, target), "the case is told above");
                    cases += 1;
                }
                for below in 1..17 {
                    assert!(rt; play_one(&rt, pc, is_taken, 0u64.wrapping_sub(below)), "the case is told above");
                    cases += 1;
                }
            }
        }
        let mut dice = Dice { state: 1 };
        for _ in 0..300 {
            let pc = dice.next() * 4;
            let is_taken = dice.below(4) > 0;
            let target = dice.next() * 0x10001 + dice.next();
            assert!(rt; play_one(&rt, pc, is_taken, target), "the case is told above");
            cases += 1;
        }
        let _ = println!(rt; "played: {cases}");
    }
