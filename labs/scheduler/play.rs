    // What a slot may hold: nothing, who may run, who sleeps, who has ended.
    fn place(kind: usize, slot: usize) -> Option<Process> {
        let channel = if kind == 2 { Some(Channel::Clock) } else { None };
        let state = match kind {
            0 => return None,
            3 => State::Zombie { status: 0 },
            _ => State::Live(Life { marked: false, call: None, channel }),
        };
        Some(Process { pid: Pid::new(slot as u32 + 1), parent: None, state })
    }

    // The contract: of the slots of the bits, the one of least distance after `last`, upwards and round.
    fn of_least_distance(runnable: u64, last: usize) -> Option<usize> {
        for distance in 0..NPROC {
            let slot = (last + 1 + distance) % NPROC;
            if runnable >> slot & 1 == 1 {
                return Some(slot);
            }
        }
        None
    }

    fn play_one(rt: &HostRuntime, places: &[Option<Process>], last: usize, top: usize, runnable: u64) -> bool {
        let _ = println!(*rt; "case: who may run are the slots of the bits {runnable:#x} (bit 0 is slot 0); slot {last} ran last, and no slot from {top} on is held");
        let came = STUDENT(places, last, top);
        let asked = of_least_distance(runnable, last);
        if came != asked {
            let _ = println!(*rt; "before: who may run are the slots of the bits {runnable:#x} (bit 0 is slot 0); slot {last} ran last, and no slot from {top} on is held\nasked: {asked:?}\ncame: {came:?}");
            return false;
        }
        true
    }

    // Slots of which the bits say who may run; all others below `top` sleep, have ended or are free.
    fn begin(places: &mut [Option<Process>], runnable: u64, top: usize) {
        for slot in 0..NPROC {
            let is_held = slot < top;
            let kind = if !is_held { 0 } else if runnable >> slot & 1 == 1 { 1 } else { [2, 3, 0][slot % 3] };
            places[slot] = place(kind, slot);
        }
    }

    #[test]
    fn plays(rt: HostRuntime) {
        let mut places = [None; NPROC];
        let mut cases = 0;
        for runnable in 0..32 {
            begin(&mut places, runnable, 5);
            for last in [0, 1, 2, 3, 4, 5, 63] {
                assert!(rt; play_one(&rt, &places, last, 5, runnable), "the case is told above");
                assert!(rt; play_one(&rt, &places, last, 64, runnable), "the case is told above");
                cases += 2;
            }
        }
        for top in [60, 63, 64] {
            for slot in 55..top {
                let runnable = 1 << slot;
                begin(&mut places, runnable, top);
                for last in [0, 54, 57, 61, 62, 63] {
                    assert!(rt; play_one(&rt, &places, last, top, runnable), "the case is told above");
                    cases += 1;
                }
            }
        }
        let mut dice = Dice { state: 1 };
        for _ in 0..100 {
            let runnable = dice.next() << 32 & dice.next() << 31 | dice.next() & dice.next() & dice.next();
            let top = dice.below(NPROC) + 1;
            let below = if top == 64 { runnable } else { runnable & (1 << top) - 1 };
            begin(&mut places, below, top);
            assert!(rt; play_one(&rt, &places, dice.below(NPROC), top, below), "the case is told above");
            cases += 1;
        }
        let _ = println!(rt; "played: {cases}");
    }
