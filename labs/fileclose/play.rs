    // What stands in a place, in words.
    fn told(place: Option<CountedFile>) -> (u16, u8, bool, bool, u64) {
        match place {
            None => (0, 0, false, false, 0),
            Some(entry) => {
                let (kind, number) = match entry.file.target {
                    Target::Console => (1, 0),
                    Target::Program { program, offset } => (2, program as u64 * 1000 + offset),
                    Target::Pipe { frame, end } => (3, u64::from(frame.number()) * 2 + u64::from(end == End::Reading)),
                };
                (entry.count, kind, entry.file.read, entry.file.write, number)
            }
        }
    }

    // Three open files of these kinds and counts, in the first places; a count of 0 leaves the place free.
    fn begin(files: &mut Files, kinds: usize, counts: [u16; 3]) {
        for place in 0..3 {
            let target = match (kinds + place) % 3 {
                0 => Target::Console,
                1 => Target::Program { program: 2, offset: 17 },
                _ => Target::Pipe { frame: Frame::new(5), end: End::Writing },
            };
            let file = OpenFile { target, read: place != 1, write: place != 0 };
            files.places[place] = None;
            if counts[place] > 0 {
                files.places[place] = Some(CountedFile { file, count: counts[place] });
            }
        }
    }

    fn play_one(rt: &HostRuntime, mine: &mut Files, its: &mut Files, kinds: usize, counts: [u16; 3], place: usize) -> bool {
        begin(mine, kinds, counts);
        // The contract: one descriptor fewer names the file in this place; after the last the place is free.
        let mut after = counts;
        after[place] -= 1;
        begin(its, kinds, after);
        let [first, second, third] = counts;
        let _ = println!(*rt; "case: places 0, 1 and 2 are named by {first}, {second} and {third} descriptors; the file in place {place} is closed");
        let came = mine.STUDENT(FileId::at(place));
        let asked = counts[place] == 1;
        if came != asked {
            let _ = println!(*rt; "before: places 0, 1 and 2 are named by {first}, {second} and {third} descriptors; the file in place {place} is closed\nclause: last\nasked: {asked}\ncame: {came}");
            return false;
        }
        for other in 0..OPEN_FILES {
            let is = told(mine.places[other]);
            let wanted = told(its.places[other]);
            let (now, _, _, _, _) = is;
            let (wants, _, _, _, _) = wanted;
            if now != wants {
                let _ = println!(*rt; "before: places 0, 1 and 2 are named by {first}, {second} and {third} descriptors; the file in place {place} is closed\nclause: after\nasked: {wants} descriptors name the file in place {other} then (0: the place is free)\ncame: {now}");
                return false;
            }
            if is != wanted {
                let _ = println!(*rt; "before: places 0, 1 and 2 are named by {first}, {second} and {third} descriptors; the file in place {place} is closed\nclause: after\nasked: place {other} is free then, or has the same file, as it is due\ncame: it isn't so");
                return false;
            }
        }
        true
    }

    #[test]
    fn plays(rt: HostRuntime) {
        let mut mine = Files::new(rt.alloc()).expect(&rt, "memory");
        let mut its = Files::new(rt.alloc()).expect(&rt, "memory");
        let mut cases = 0;
        for kinds in 0..3 {
            for first in [1, 2, 3, 4096] {
                for second in [0, 1, 2] {
                    assert!(rt; play_one(&rt, &mut mine, &mut its, kinds, [first, second, 1], 0), "the case is told above");
                    assert!(rt; play_one(&rt, &mut mine, &mut its, kinds, [second, first, 0], 1), "the case is told above");
                    cases += 2;
                }
            }
        }
        let mut dice = Dice { state: 1 };
        for _ in 0..20 {
            let counts = [dice.below(4096) as u16 + 1, dice.below(3) as u16, dice.below(5) as u16 + 1];
            let place = 2 * dice.below(2);
            assert!(rt; play_one(&rt, &mut mine, &mut its, dice.below(3), counts, place), "the case is told above");
            cases += 1;
        }
        let _ = println!(rt; "played: {cases}");
    }
