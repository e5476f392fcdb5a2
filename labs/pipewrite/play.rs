    // RAM in which frame 1 keeps a pipe of `count` bytes, the oldest of which stands at the place `oldest`.
    fn begin(ram: &mut Ram, oldest: usize, count: usize) {
        let frame = Frame::new(1);
        make(ram, frame);
        let ring = ram.frame_mut(frame);
        for place in 0..PIPE_BYTES {
            ring[RING + place] = (place % 251) as u8;
        }
        ram.write_u64(frame, READERS, 2);
        ram.write_u64(frame, WRITERS, 3);
        ram.write_u64(frame, OLDEST, oldest as u64);
        ram.write_u64(frame, COUNT, count as u64);
    }

    // The contract: a byte of the pipe after the write (`with_more`).
    fn asked_byte(oldest: usize, count: usize, bytes: &[u8], place: usize) -> u8 {
        if place < count { ((oldest + place) % PIPE_BYTES % 251) as u8 } else { bytes[place - count] }
    }

    // Whether a frame beside the pipe's, or the last of all, isn't all zeros any more.
    fn has_other_frames(ram: &Ram) -> bool {
        for number in [0, 2, 15] {
            for word in 0..512 {
                if ram.read_u64(Frame::new(number), word) != 0 {
                    return true;
                }
            }
        }
        false
    }

    fn play_one(rt: &HostRuntime, mine: &mut Ram, oldest: usize, count: usize, bytes: &[u8]) -> bool {
        let frame = Frame::new(1);
        begin(mine, oldest, count);
        let size = bytes.len();
        let _ = println!(*rt; "case: a pipe of {count} bytes, the oldest at place {oldest}; {size} bytes are written");
        let came = STUDENT(mine, frame, bytes);
        let asked = size.min(PIPE_BYTES - count);
        if came != asked {
            let _ = println!(*rt; "before: a pipe of {count} bytes, the oldest at place {oldest}; {size} bytes are written\nclause: count\nasked: it tells {asked}\ncame: it tells {came}");
            return false;
        }
        let there = mine.read_u64(frame, COUNT);
        let wanted = (count + asked) as u64;
        if there != wanted {
            let _ = println!(*rt; "before: a pipe of {count} bytes, the oldest at place {oldest}; {size} bytes are written\nclause: pipe\nasked: the pipe then has {wanted} bytes\ncame: it has {there}");
            return false;
        }
        let is_in_range = mine.read_u64(frame, OLDEST) < PIPE_BYTES as u64;
        if !is_in_range {
            let _ = println!(*rt; "before: a pipe of {count} bytes, the oldest at place {oldest}; {size} bytes are written\nclause: pipe\nasked: the oldest byte's place is below 2048\ncame: it is not");
            return false;
        }
        let ends = mine.read_u64(frame, READERS) == 2 && mine.read_u64(frame, WRITERS) == 3;
        if !ends {
            let _ = println!(*rt; "before: a pipe of {count} bytes, the oldest at place {oldest}; {size} bytes are written\nclause: pipe\nasked: its readers and writers are as many as before\ncame: they aren't");
            return false;
        }
        let begins = mine.read_u64(frame, OLDEST) as usize;
        let held = mine.frame(frame);
        for place in 0..count + asked {
            let is = held[RING + (begins + place) % PIPE_BYTES];
            let wants = asked_byte(oldest, count, bytes, place);
            if is != wants {
                let _ = println!(*rt; "before: a pipe of {count} bytes, the oldest at place {oldest}; {size} bytes are written\nclause: pipe\nasked: byte {place} of the pipe is {wants} then\ncame: it is {is}");
                return false;
            }
        }
        if has_other_frames(mine) {
            let _ = println!(*rt; "before: a pipe of {count} bytes, the oldest at place {oldest}; {size} bytes are written\nclause: pipe\nasked: no other frame changes\ncame: one does");
            return false;
        }
        true
    }

    #[test]
    fn plays(rt: HostRuntime) {
        let mut mine = Ram::new(rt.alloc(), 16).expect(&rt, "memory");
        let mut bytes = [0; 4096];
        for place in 0..4096 {
            bytes[place] = (place % 253) as u8 + 1;
        }
        let mut cases = 0;
        for size in [0, 1, 3, 2047, 2048, 4096] {
            for count in [0, 1, 2, 2046, 2047, 2048] {
                for oldest in [0, 1, 2046, 2047] {
                    assert!(rt; play_one(&rt, &mut mine, oldest, count, &bytes[..size]), "the case is told above");
                    cases += 1;
                }
            }
        }
        let mut dice = Dice { state: 1 };
        for _ in 0..30 {
            let count = dice.below(PIPE_BYTES + 1);
            let oldest = dice.below(PIPE_BYTES);
            let size = dice.below(4097);
            assert!(rt; play_one(&rt, &mut mine, oldest, count, &bytes[..size]), "the case is told above");
            cases += 1;
        }
        let _ = println!(rt; "played: {cases}");
    }
