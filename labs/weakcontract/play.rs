    // What the comment says of the table whose places in use have the bits of `used`.
    fn lowest_of(used: u64, places: usize) -> Option<usize> {
        for place in 0..places {
            if used >> place & 1 == 0 {
                return Some(place);
            }
        }
        None
    }

    fn play_one(rt: &HostRuntime, used: u64, places: usize) -> bool {
        let mut files: [Option<u16>; 4] = [None; 4];
        for place in 0..places {
            if used >> place & 1 == 1 {
                files[place] = Some(7);
            }
        }
        let _ = println!(*rt; "case: a table of {places} places, in use those of the bits {used:#06b} (bit 0, the last, is place 0)");
        let came = STUDENT(&files[..places]);
        let asked = lowest_of(used, places);
        if came != asked {
            let _ = println!(*rt; "before: a table of {places} places, in use those of the bits {used:#06b} (bit 0, the last, is place 0)\nasked: {asked:?}\ncame: {came:?}");
        }
        came == asked
    }

    #[test]
    fn plays(rt: HostRuntime) {
        let mut cases = 0;
        for places in 0..5 {
            for used in 0..1u64 << places {
                assert!(rt; play_one(&rt, used, places), "the case is told above");
                cases += 1;
            }
        }
        let _ = println!(rt; "played: {cases}");
    }
