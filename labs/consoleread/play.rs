    // A console whose committed bytes these are.
    fn begin(console: &mut Console, bytes: &[u8]) {
        console.committed.clear();
        for byte in bytes {
            console.committed.push_back(*byte);
        }
    }

    // Where the first byte stands that ends a read, or else how many bytes there are (`line_length`).
    fn line_length(bytes: &[u8]) -> usize {
        for place in 0..bytes.len() {
            if bytes[place] == 4 || bytes[place] == 10 {
                return place;
            }
        }
        bytes.len()
    }

    // The contract (`pulled`): how many bytes are taken, whether the read is over, and how many are committed no longer.
    fn pulled(bytes: &[u8], room: usize, done: usize) -> (usize, bool, usize) {
        let end = line_length(bytes);
        if room <= end {
            return (room, true, room);
        }
        if end == bytes.len() {
            return (end, false, end);
        }
        if bytes[end] == 10 {
            return (end + 1, true, end + 1);
        }
        if done == 0 && end == 0 { (0, true, 1) } else { (end, true, end) }
    }

    fn play_one(rt: &HostRuntime, mine: &mut Console, bytes: &[u8], room: usize, done: usize) -> bool {
        begin(mine, bytes);
        let _ = println!(*rt; "case: committed are {bytes:?}; a read has room for {room} more bytes, and took {done} before");
        let mut got = [170; 140];
        let mut wanted = [170; 140];
        let came = mine.STUDENT(&mut got[..room], done);
        let (takes, ends, goes) = pulled(bytes, room, done);
        wanted[..takes].copy_from_slice(&bytes[..takes]);
        let taken = came.taken;
        let ended = came.ended;
        if taken != takes {
            let _ = println!(*rt; "before: committed are {bytes:?}; a read has room for {room} more bytes, and took {done} before\nclause: count\nasked: it takes {takes}\ncame: {taken}");
            return false;
        }
        if ended != ends {
            let _ = println!(*rt; "before: committed are {bytes:?}; a read has room for {room} more bytes, and took {done} before\nclause: ended\nasked: the read is over: {ends}\ncame: {ended}");
            return false;
        }
        if got != wanted {
            let _ = println!(*rt; "before: committed are {bytes:?}; a read has room for {room} more bytes, and took {done} before\nclause: bytes\nasked: the buffer has other bytes\ncame: another byte in it is wrong, or one beyond those taken changed");
            return false;
        }
        let left = mine.committed.len();
        let wants = bytes.len() - goes;
        if left != wants {
            let _ = println!(*rt; "before: committed are {bytes:?}; a read has room for {room} more bytes, and took {done} before\nclause: after\nasked: {wants} bytes stay committed\ncame: {left}");
            return false;
        }
        for place in 0..wants {
            let same = mine.byte(place) == Some(bytes[goes + place]);
            if !same {
                let _ = println!(*rt; "before: committed are {bytes:?}; a read has room for {room} more bytes, and took {done} before\nclause: after\nasked: another byte is at place {place} of those that stay\ncame: a wrong one");
                return false;
            }
        }
        true
    }

    #[test]
    fn plays(rt: HostRuntime) {
        let mut mine = Console::new(rt.alloc()).expect(&rt, "memory");
        let mut cases = 0;
        // All lists of at most three of the bytes a, b, 4 and 10.
        for count in 0..4 {
            for code in 0..64 {
                let bytes = [[97, 98, 4, 10][code % 4], [97, 98, 4, 10][code / 4 % 4], [97, 98, 4, 10][code / 16 % 4]];
                for room in 0..5 {
                    for done in [0, 1] {
                        assert!(rt; play_one(&rt, &mut mine, &bytes[..count], room, done), "the case is told above");
                        cases += 1;
                    }
                }
            }
        }
        let mut dice = Dice { state: 1 };
        for _ in 0..100 {
            let mut bytes = [0; CONSOLE_BYTES];
            let count = dice.below(CONSOLE_BYTES + 1);
            for place in 0..count {
                bytes[place] = if dice.below(40) == 0 { 10 } else if dice.below(40) == 0 { 4 } else { (dice.next() % 256) as u8 };
            }
            let room = dice.below(140);
            assert!(rt; play_one(&rt, &mut mine, &bytes[..count], room, dice.below(2) * room), "the case is told above");
            cases += 1;
        }
        let _ = println!(rt; "played: {cases}");
    }
