    fn play_one(rt: &HostRuntime, used: u64, places: usize) -> bool {
        let mut files: [Option<u16>; 6] = [None; 6];
        let mut asked = 0;
        for place in 0..places {
            if used >> place & 1 == 1 {
                files[place] = Some(7);
                asked += 1;
            }
        }
        let _ = println!(*rt; "case: a table of {places} places, in use those of the bits {used:#08b} (bit 0, the last, is place 0)");
        let came = STUDENT(&files[..places]);
        if came != asked {
            let _ = println!(*rt; "before: a table of {places} places, in use those of the bits {used:#08b} (bit 0, the last, is place 0)\nclause: \nasked: {asked}\ncame: {came}");
        }
        came == asked
    }

    #[test]
    fn plays(rt: HostRuntime) {
        let mut cases = 0;
        for places in 0..7 {
            for used in 0..1u64 << places {
                assert!(rt; play_one(&rt, used, places), "the case is told above");
                cases += 1;
            }
        }
        let _ = println!(rt; "played: {cases}");
    }
