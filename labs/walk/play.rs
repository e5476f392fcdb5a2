    // RAM has so many frames.
    const RAM_FRAMES: u64 = 16;

    const KINDS: [&'static str; 3] = ["a fetch", "a load", "a store"];

    // What an entry's 64 bits say (`entry_of`).
    #[derive(Clone, Copy)]
    enum Says {
        Nothing,
        Table(u64),
        Leaf(u64),
    }

    fn bit(word: u64, place: u64) -> bool {
        word >> place & 1 == 1
    }

    fn says(word: u64) -> Says {
        let page = word >> 10 & (1 << 44) - 1;
        let is_usable = bit(word, 0) && (!bit(word, 2) || bit(word, 1)) && word >> 54 == 0;
        if !is_usable || page < 0x80000 || page - 0x80000 >= RAM_FRAMES {
            return Says::Nothing;
        }
        if bit(word, 1) || bit(word, 3) { Says::Leaf(page - 0x80000) } else { Says::Table(page - 0x80000) }
    }

    // The byte of RAM that a fetch (0), a load (1) or a store (2) reaches by a last entry, at an offset (`allowed`).
    fn allowed(kind: usize, word: u64, offset: u64) -> Option<u64> {
        let Says::Leaf(frame) = says(word) else {
            return None;
        };
        let has_right = match kind {
            0 => bit(word, 3),
            1 => bit(word, 1),
            _ => bit(word, 2) && bit(word, 7),
        };
        if bit(word, 4) && bit(word, 6) && has_right { Some(frame * 4096 + offset) } else { None }
    }

    // The same by an address, from the root on (`walked`).
    fn walked(ram: &Ram, kind: usize, va: u64) -> Option<u64> {
        let sign = if bit(va, 38) { (1 << 25) - 1 } else { 0 };
        if va >> 39 != sign {
            return None;
        }
        let Says::Table(upper) = says(ram.read_u64(Frame::new(1), (va >> 30 & 511) as usize)) else {
            return None;
        };
        let Says::Table(lower) = says(ram.read_u64(Frame::new(upper as u32), (va >> 21 & 511) as usize)) else {
            return None;
        };
        allowed(kind, ram.read_u64(Frame::new(lower as u32), (va >> 12 & 511) as usize), va & 4095)
    }

    // Writes an entry: to the frame of a number, with these flags.
    fn put(ram: &mut Ram, table: u32, place: usize, frame: u64, flags: u64) {
        ram.write_u64(Frame::new(table), place, (0x80000 + frame) << 10 | flags);
    }

    // Tables of all sorts: the root is frame 1. Frames 2, 4 and 5 are upper tables, and 3 and 6 lower ones. Entries of the
    // lower ones lead to other frames from place to place; some lack V, A, D, U or a right, and some lead to a table.
    fn begin(ram: &mut Ram) {
        put(ram, 1, 0, 2, 1);
        put(ram, 1, 255, 4, 1);
        put(ram, 1, 256, 5, 1);
        put(ram, 1, 511, 2, 1);
        put(ram, 1, 1, 2, 0);
        put(ram, 1, 2, 2, 3);
        put(ram, 1, 3, 99, 1);
        put(ram, 2, 0, 3, 1);
        put(ram, 2, 1, 6, 1);
        put(ram, 2, 2, 3, 0);
        put(ram, 2, 3, 3, 15);
        put(ram, 2, 511, 6, 1);
        put(ram, 4, 0, 6, 1);
        put(ram, 4, 511, 3, 1);
        put(ram, 5, 0, 3, 1);
        for place in 0..512 {
            let turn = place as u64;
            put(ram, 3, place, 7 + turn % 9, 31 + 32 * ((turn + 1) % 3 + 5));
            put(ram, 6, place, turn % 19, turn * 37 % 256 | 208);
        }
        put(ram, 3, 1, 7, 31 + 64);
        put(ram, 3, 2, 6, 1);
        put(ram, 3, 511, 8, 30);
        put(ram, 6, 1, 9, 31 + 192);
    }

    // Whether what came says of each kind of access what the walk does; an answer None says that none reaches anything.
    fn play_one(rt: &HostRuntime, ram: &Ram, va: u64) -> bool {
        let _ = println!(*rt; "case: the virtual address {va:#x}");
        let came = STUDENT(ram, Frame::new(1), va).map(|entry| entry.bits());
        for kind in 0..3 {
            let asked = walked(ram, kind, va);
            let reached = match came {
                None => None,
                Some(word) => allowed(kind, word, va & 4095),
            };
            if reached != asked {
                let first = va >> 30 & 511;
                let second = va >> 21 & 511;
                let third = va >> 12 & 511;
                let access = KINDS[kind];
                let _ = println!(*rt; "before: the virtual address {va:#x}; its parts are {first} in the root, {second} in the upper and {third} in the lower table\nasked: {access} reaches {asked:?} (a byte of RAM; None: it faults)\ncame: the answer {came:?}, and by it {access} reaches {reached:?}");
                return false;
            }
        }
        true
    }

    #[test]
    fn plays(rt: HostRuntime) {
        let mut ram = Ram::new(rt.alloc(), RAM_FRAMES as u32).expect(&rt, "memory");
        begin(&mut ram);
        let mut cases = 0;
        for first in [0, 1, 2, 3, 4, 255, 256, 511] {
            for second in [0, 1, 2, 3, 4, 511] {
                for third in [0, 1, 2, 511] {
                    let low = first << 30 | second << 21 | third << 12;
                    assert!(rt; play_one(&rt, &ram, low), "the case is told above");
                    assert!(rt; play_one(&rt, &ram, low | 0xffff_ff80_0000_0000), "the case is told above");
                    assert!(rt; play_one(&rt, &ram, low | 0x0000_0080_0000_0000 | 5), "the case is told above");
                    assert!(rt; play_one(&rt, &ram, low | 0x8000_0000_0000_0000), "the case is told above");
                    cases += 4;
                }
            }
        }
        let mut dice = Dice { state: 1 };
        for _ in 0..300 {
            let third = dice.next() & 0x1f_ffff;
            let second = dice.below(5) as u64;
            let first = [0, 0, 0, 255, 256, 511][dice.below(6)];
            let sign = [0, 0, 0, 0xffff_ff80_0000_0000, 0x4000_0000_0000_0000][dice.below(5)];
            assert!(rt; play_one(&rt, &ram, sign | first << 30 | second << 21 | third), "the case is told above");
            cases += 1;
        }
        let _ = println!(rt; "played: {cases}");
    }
