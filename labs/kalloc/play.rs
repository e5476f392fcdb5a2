    // The words of a frame that are filled before, and looked at after.
    const SOME_WORDS: [usize; 5] = [0, 1, 2, 255, 511];

    fn is_same_frame(one: &Ram, other: &Ram, frame: Frame) -> bool {
        for word in SOME_WORDS {
            if one.read_u64(frame, word) != other.read_u64(frame, word) {
                return false;
            }
        }
        true
    }

    // RAM of 16 frames, all of other bytes than 0, and a pool of as many of them, in an order that `step` gives.
    fn begin(ram: &mut Ram, count: u32, step: u32) -> Pool {
        for number in 0..16 {
            for word in SOME_WORDS {
                ram.write_u64(Frame::new(number), word, 0x0101_0101_0101_0101 * (u64::from(number) + 1));
            }
        }
        let mut pool = Pool { first: None, count: 0 };
        for turn in 0..count {
            pool.give(ram, Frame::new(turn * step % 16));
        }
        pool
    }

    // How often a frame is in the list, whose links are followed at most 20 times; 99 if the list has no end or leads out of RAM.
    fn listed(ram: &Ram, pool: &Pool, frame: Frame) -> u32 {
        let mut found = 0;
        let mut at = pool.first;
        for _ in 0..20 {
            match at {
                None => return found,
                Some(here) => {
                    if here.number() >= 16 || ram.read_u64(here, 0) > 16 {
                        return 99;
                    }
                    found += u32::from(here == frame);
                    at = linked(ram.read_u64(here, 0));
                }
            }
        }
        99
    }

    fn play_one(rt: &HostRuntime, mine: &mut Ram, its: &mut Ram, count: u32, step: u32) -> bool {
        let mut pool = begin(mine, count, step);
        let before = begin(its, count, step);
        let _ = println!(*rt; "case: {count} of 16 frames are free");
        let came = pool.STUDENT(mine);
        let Some(taken) = came else {
            if count != 0 {
                let _ = println!(*rt; "before: {count} of 16 frames are free\nclause: none\nasked: a frame\ncame: None");
                return false;
            }
            let mut same = pool.count == 0 && pool.first.is_none();
            for other in 0..16 {
                same = same && is_same_frame(mine, its, Frame::new(other));
            }
            if !same {
                let _ = println!(*rt; "before: {count} of 16 frames are free\nclause: none\nasked: the pool and RAM stay as they were\ncame: one of them changed");
                return false;
            }
            return true;
        };
        let number = taken.number();
        if !(number < 16) {
            let _ = println!(*rt; "before: {count} of 16 frames are free\nclause: taken\nasked: a frame of RAM\ncame: frame {number}");
            return false;
        }
        let was_free = listed(its, &before, taken);
        if was_free != 1 {
            let _ = println!(*rt; "before: {count} of 16 frames are free\nclause: taken\nasked: a frame that was free\ncame: frame {number}, which wasn't");
            return false;
        }
        let counted = pool.count;
        if counted + 1 != count {
            let _ = println!(*rt; "before: {count} of 16 frames are free\nclause: taken\nasked: one frame fewer is counted\ncame: {counted} are");
            return false;
        }
        for other in 0..16 {
            let frame = Frame::new(other);
            let is = listed(mine, &pool, frame);
            let wanted = if other == number { 0 } else { listed(its, &before, frame) };
            if is != wanted {
                let _ = println!(*rt; "before: {count} of 16 frames are free; frame {number} is taken\nclause: taken\nasked: frame {other} stands {wanted} times in the list\ncame: {is} times (99: the list has no end, or leads out of RAM)");
                return false;
            }
            let same = wanted == 1 || is_same_frame(mine, its, frame);
            if !(same || other == number) {
                let _ = println!(*rt; "before: {count} of 16 frames are free; frame {number} is taken\nclause: taken\nasked: frame {other}, which isn't free, keeps its bytes\ncame: it doesn't");
                return false;
            }
        }
        for word in 0..512 {
            let left = mine.read_u64(taken, word);
            if left != 0 {
                let _ = println!(*rt; "before: {count} of 16 frames are free; frame {number} is taken\nclause: taken\nasked: it is all zeros\ncame: its word {word} is {left:#x}");
                return false;
            }
        }
        true
    }

    #[test]
    fn plays(rt: HostRuntime) {
        let mut mine = Ram::new(rt.alloc(), 16).expect(&rt, "memory");
        let mut its = Ram::new(rt.alloc(), 16).expect(&rt, "memory");
        let mut cases = 0;
        for count in 0..17 {
            for step in [1, 3, 7, 13] {
                assert!(rt; play_one(&rt, &mut mine, &mut its, count, step), "the case is told above");
                cases += 1;
            }
        }
        let _ = println!(rt; "played: {cases}");
    }
