    // A console of so many committed and uncommitted bytes.
    fn begin(console: &mut Console, committed: usize, uncommitted: usize) {
        console.committed.clear();
        console.uncommitted.clear();
        for place in 0..committed {
            console.committed.push_back(65 + (place % 26) as u8);
        }
        for place in 0..uncommitted {
            console.uncommitted.push_back(97 + (place % 26) as u8);
        }
    }

    // A console's lists as `begin` fills them, and what is shown, each in an array with how many bytes there are.
    #[derive(Clone, Copy)]
    struct Asked {
        committed: [u8; 130],
        commits: usize,
        uncommitted: [u8; 130],
        keeps: usize,
        shown: [u8; 400],
        shows: usize,
    }

    impl Asked {
        fn show(&mut self, byte: u8) {
            self.shown[self.shows] = byte;
            self.shows += 1;
        }

        // So many bytes are taken off the terminal (`wipes`), and off the line.
        fn wipe(&mut self, count: usize) {
            for _ in 0..count {
                self.show(8);
                self.show(32);
                self.show(8);
            }
            self.keeps -= count;
        }

        // A byte more is in the line (`with_byte`). Bytes 10 and 4 end it, and so does the last that there is room for.
        fn put(&mut self, byte: u8) {
            self.show(byte);
            self.uncommitted[self.keeps] = byte;
            self.keeps += 1;
            if byte == 10 || byte == 4 || self.commits + self.keeps == CONSOLE_BYTES {
                for place in 0..self.keeps {
                    self.committed[self.commits + place] = self.uncommitted[place];
                }
                self.commits += self.keeps;
                self.keeps = 0;
            }
        }

        // What a key does (`line`).
        fn key(&mut self, key: u8) {
            match key {
                0 | 16 => {}
                8 | 127 => self.wipe(self.keeps.min(1)),
                21 => self.wipe(self.keeps),
                _ if self.commits + self.keeps >= CONSOLE_BYTES => {}
                13 => self.put(10),
                _ => self.put(key),
            }
        }
    }

    // The contract: what `begin` made, after a key.
    fn asked_of(committed: usize, uncommitted: usize, key: u8) -> Asked {
        let mut asked = Asked { committed: [0; 130], commits: committed, uncommitted: [0; 130], keeps: uncommitted, shown: [0; 400], shows: 0 };
        for place in 0..committed {
            asked.committed[place] = 65 + (place % 26) as u8;
        }
        for place in 0..uncommitted {
            asked.uncommitted[place] = 97 + (place % 26) as u8;
        }
        asked.key(key);
        asked
    }

    // Whether one of a console's lists has these bytes.
    fn has(console: &Console, list: ConsoleList, bytes: &[u8]) -> bool {
        for place in 0..bytes.len() {
            if console.byte_of(list, place) != Some(bytes[place]) {
                return false;
            }
        }
        console.byte_of(list, bytes.len()).is_none()
    }

    fn play_one(rt: &HostRuntime, mine: &mut Console, committed: usize, uncommitted: usize, key: u8) -> bool {
        begin(mine, committed, uncommitted);
        let _ = println!(*rt; "case: {committed} bytes are committed and {uncommitted} are not; the key {key}");
        let came = mine.STUDENT(key);
        let asked = asked_of(committed, uncommitted, key);
        let shown = came.len();
        let wanted = asked.shows;
        if shown != wanted {
            let _ = println!(*rt; "before: {committed} bytes are committed and {uncommitted} are not; the key {key}\nclause: echo\nasked: {wanted} bytes are shown\ncame: {shown}");
            return false;
        }
        if came.as_slice() != &asked.shown[..wanted] {
            let _ = println!(*rt; "before: {committed} bytes are committed and {uncommitted} are not; the key {key}\nclause: echo\nasked: other bytes are shown\ncame: as many, and others");
            return false;
        }
        let there = mine.committed.len();
        let wants = asked.commits;
        if there != wants {
            let _ = println!(*rt; "before: {committed} bytes are committed and {uncommitted} are not; the key {key}\nclause: after\nasked: {wants} bytes are committed then\ncame: {there}");
            return false;
        }
        let open = mine.uncommitted.len();
        let wants_open = asked.keeps;
        if open != wants_open {
            let _ = println!(*rt; "before: {committed} bytes are committed and {uncommitted} are not; the key {key}\nclause: after\nasked: {wants_open} bytes are uncommitted then\ncame: {open}");
            return false;
        }
        let same = has(mine, ConsoleList::Committed, &asked.committed[..wants]) && has(mine, ConsoleList::Uncommitted, &asked.uncommitted[..wants_open]) && mine.to_send.len() == 0;
        if !same {
            let _ = println!(*rt; "before: {committed} bytes are committed and {uncommitted} are not; the key {key}\nclause: after\nasked: other bytes are in the lists\ncame: as many, and others");
            return false;
        }
        true
    }

    #[test]
    fn plays(rt: HostRuntime) {
        let mut mine = Console::new(rt.alloc()).expect(&rt, "memory");
        let mut cases = 0;
        for key in [0, 4, 8, 10, 13, 16, 21, 97, 127, 255] {
            for (committed, uncommitted) in [(0, 0), (1, 0), (0, 1), (1, 1), (0, 2), (3, 4), (128, 0), (0, 127), (127, 0), (64, 63), (64, 62), (126, 1)] {
                assert!(rt; play_one(&rt, &mut mine, committed, uncommitted, key), "the case is told above");
                cases += 1;
            }
        }
        let mut dice = Dice { state: 1 };
        for _ in 0..200 {
            let committed = dice.below(CONSOLE_BYTES + 1);
            let uncommitted = dice.below(CONSOLE_BYTES + 1 - committed).min(126);
            let key = (dice.next() % 256) as u8;
            assert!(rt; play_one(&rt, &mut mine, committed, uncommitted, key), "the case is told above");
            cases += 1;
        }
        let _ = println!(rt; "played: {cases}");
    }
