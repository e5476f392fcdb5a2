    // Process 1 runs, 2 sleeps in a call of sleep, 3 has ended, and the others may run. All of it came about by calls, so
    // the kernel is whole, as the contract wants it.
    fn scene<R: Abort + AllocGlobal>(rt: &R, count: usize) -> Scene {
        let mut scene = Scene::new(rt, count - 1);
        if count > 1 {
            scene.run(2);
            scene.hart.regs_mut().write(xk_base::Reg::new(17), 13);
            scene.hart.regs_mut().write(xk_base::Reg::new(10), 1000);
            scene.kernel.call(&mut scene.hart);
        }
        if count > 2 {
            scene.run(3);
            scene.kernel.exit(&mut scene.hart, 7);
        }
        scene.run(1);
        scene
    }

    // The contract: the slot of the process that is marked, if the number in a0 is a process's pid (`kill` of the rows).
    fn marked_slot(a0: u64, count: usize) -> Option<usize> {
        let number = (a0 % (1 << 32)) as usize;
        if 1 <= number && number <= count { Some(number - 1) } else { None }
    }

    // What of the process in a slot isn't as the contract wants it.
    fn amiss(kernel: &Kernel, slot: usize, marked: Option<usize>) -> Option<&'static str> {
        let has_ended = slot == 2;
        if kernel.table.status(slot) != (if has_ended { Some(7) } else { None }) {
            return Some(if has_ended { "it has ended with status 7" } else { "it lives" });
        }
        if has_ended {
            return None;
        }
        let is_asked = marked == Some(slot);
        if kernel.table.marked(slot) != is_asked {
            return Some(if is_asked { "it is marked" } else { "it isn't marked" });
        }
        let sleeps = slot == 1 && !is_asked;
        if kernel.table.asleep(slot) != sleeps {
            return Some(if sleeps { "it sleeps" } else { "it is awake" });
        }
        if kernel.table.progress(slot).is_some() != (slot == 1) {
            return Some("it is in the call that it was in");
        }
        None
    }

    fn play_one(rt: &HostRuntime, mine: &mut Scene, call: &Call, count: usize) -> bool {
        let first = call.a0;
        let second = call.a1;
        let _ = println!(*rt; "case: processes 1 to {count} (1 runs, 2 sleeps, 3 has ended, if they are there); a0 is {first:#x}, a1 is {second:#x}");
        let came = answered(mine.kernel.STUDENT(&mut mine.hart, call));
        let marked = marked_slot(first, count);
        let asked = if marked.is_some() { 0 } else { -1 };
        let left = mine.a0();
        if came != asked || left != asked {
            let _ = println!(*rt; "before: processes 1 to {count} (1 runs, 2 sleeps, 3 has ended, if they are there); a0 is {first:#x}, a1 is {second:#x}\nclause: answer\nasked: the answer is {asked}, in a0 too\ncame: it is {came}, and a0 has {left}");
            return false;
        }
        for slot in 0..count {
            if let Some(wanted) = amiss(&mine.kernel, slot, marked) {
                let pid = slot + 1;
                let _ = println!(*rt; "before: processes 1 to {count} (1 runs, 2 sleeps, 3 has ended, if they are there); a0 is {first:#x}, a1 is {second:#x}\nclause: made\nasked: of process {pid}: {wanted}\ncame: it is not so");
                return false;
            }
        }
        true
    }

    #[test]
    fn plays(rt: HostRuntime) {
        let mut cases = 0;
        for count in [1, 2, 4] {
            for a0 in [0, 1, 2, 3, 4, 5, 0x1_0000_0002, 0x7FFF_FFFF, 0xFFFF_FFFF, 0xFFFF_FFFF_FFFF_FFFE] {
                let call = Call { number: 6, a0, a1: 4, a2: 0, moved: 0, clock: 0 };
                let mut mine = scene(&rt, count);
                assert!(rt; play_one(&rt, &mut mine, &call, count), "the case is told above");
                cases += 1;
            }
        }
        let _ = println!(rt; "played: {cases}");
    }
