    // A table in which bit n of `used` says whether descriptor n is in use.
    fn table(used: u32) -> Descriptors {
        let mut made = Descriptors::new();
        for number in 0..NOFILE {
            if used >> number & 1 == 1 {
                made.put(Fd::new(number as u8), FileId::at(number + 3));
            }
        }
        made
    }

    // The contract: the place of the first descriptor that is in no use.
    fn lowest_unused(used: u32) -> Option<u8> {
        for number in 0..NOFILE {
            if used >> number & 1 == 0 {
                return Some(number as u8);
            }
        }
        None
    }

    fn play_one(rt: &HostRuntime, used: u32) -> bool {
        let made = table(used);
        let _ = println!(*rt; "case: in use are the descriptors of the bits {used:#034b} (bit 0, the last, is descriptor 0)");
        let came = made.STUDENT().map(|fd| fd.number());
        let asked = lowest_unused(used);
        if came != asked {
            let _ = println!(*rt; "before: in use are the descriptors of the bits {used:#034b} (bit 0, the last, is descriptor 0)\nasked: {asked:?}\ncame: {came:?}");
            return false;
        }
        true
    }

    #[test]
    fn plays(rt: HostRuntime) {
        let mut cases = 0;
        for low in 0..64 {
            assert!(rt; play_one(&rt, low), "the case is told above");
            assert!(rt; play_one(&rt, 0xffff_ffff - low), "the case is told above");
            assert!(rt; play_one(&rt, 0xffff_ffff - (low << 26)), "the case is told above");
            cases += 3;
        }
        let mut dice = Dice { state: 1 };
        for _ in 0..200 {
            let used = dice.next() as u32 | dice.next() as u32;
            assert!(rt; play_one(&rt, used), "the case is told above");
            cases += 1;
        }
        let _ = println!(rt; "played: {cases}");
    }
