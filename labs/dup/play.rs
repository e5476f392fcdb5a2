    // What the descriptors of process 1 are on in a case: 0 and 1 on the console, 2 free or on it too, 3 on a program's
    // file, 4 and 5 on a pipe, and as many more on the console as it says.
    fn scene<R: Abort + AllocGlobal>(rt: &R, is_2_free: bool, more: u8) -> Scene {
        let mut scene = Scene::new(rt, 1);
        for number in 0..3 {
            scene.kernel.open_console_at(0, Fd::new(number), true, true);
        }
        scene.kernel.open_program_at(0, Fd::new(3), 0);
        let pipe = Call { number: 4, a0: 0, a1: 0, a2: 0, moved: 0, clock: 0 };
        scene.kernel.pipe(&mut scene.hart, &pipe);
        for number in 0..more {
            scene.kernel.open_console_at(0, Fd::new(6 + number), true, true);
        }
        if is_2_free {
            scene.kernel.close_descriptor(0, Fd::new(2));
        }
        scene
    }

    fn named(kernel: &Kernel, number: u8) -> Option<FileId> {
        kernel.table.descriptors(0).get(Fd::new(number))
    }

    // The contract: the descriptor that is doubled, and the new one; none if one of the two is missing (`dup` of the rows).
    fn doubled(before: &Kernel, a0: u64) -> Option<(u8, u8)> {
        let number = a0 % (1 << 32);
        if number >= NOFILE as u64 || named(before, number as u8).is_none() {
            return None;
        }
        for new in 0..NOFILE as u8 {
            if named(before, new).is_none() {
                return Some((number as u8, new));
            }
        }
        None
    }

    // What a descriptor names after the call, told by what stood there before.
    fn named_then(before: &Kernel, made: Option<(u8, u8)>, number: u8) -> Option<FileId> {
        match made {
            Some((old, new)) if new == number => named(before, old),
            _ => named(before, number),
        }
    }

    // What an open file is, as a number: two that are alike have the same.
    fn kind_of(kernel: &Kernel, file: FileId) -> u64 {
        let kind = kernel.files.kind(file);
        let target = match kind.target {
            file_table::Target::Console => 0,
            file_table::Target::Program { program, offset } => 1 + program as u64 * 1000 + offset,
            file_table::Target::Pipe { frame, .. } => 1_000_000 + u64::from(frame.number()),
        };
        target * 4 + u64::from(kind.read) * 2 + u64::from(kind.write)
    }

    // The first descriptor of process 1 that isn't as asked: it is in use or not, its file is of that kind, and it shares it
    // with those that it has to share it with.
    fn first_amiss(mine: &Kernel, before: &Kernel, made: Option<(u8, u8)>) -> Option<u8> {
        for number in 0..NOFILE as u8 {
            match (named(mine, number), named_then(before, made, number)) {
                (None, None) => {}
                (Some(is), Some(asked)) => {
                    if kind_of(mine, is) != kind_of(before, asked) {
                        return Some(number);
                    }
                    for other in 0..number {
                        let shares = named(mine, other) == Some(is);
                        if shares != (named_then(before, made, other) == Some(asked)) {
                            return Some(number);
                        }
                    }
                }
                _ => return Some(number),
            }
        }
        None
    }

    // How many open files the descriptors above a number name after the call, and whether an end of the pipe is one.
    fn still_open(before: &Kernel, made: Option<(u8, u8)>, number: u8) -> (usize, bool) {
        let mut count = 0;
        let mut has_pipe = false;
        for above in number + 1..NOFILE as u8 {
            let file = named_then(before, made, above);
            let mut is_first = file.is_some();
            for earlier in number + 1..above {
                is_first = is_first && named_then(before, made, earlier) != file;
            }
            count += usize::from(is_first);
            has_pipe = has_pipe || is_first && (file == named(before, 4) || file == named(before, 5));
        }
        (count, has_pipe)
    }

    // Whether the open files and the pipe count their descriptors: as these are closed one by one, each goes with its last.
    fn counts_right(mine: &mut Kernel, before: &Kernel, made: Option<(u8, u8)>) -> bool {
        let free = before.memories.free();
        for number in 0..NOFILE as u8 {
            if named(mine, number).is_some() {
                mine.close_descriptor(0, Fd::new(number));
            }
            let (count, has_pipe) = still_open(before, made, number);
            if mine.files.in_use() != count || mine.memories.free() != (if has_pipe { free } else { free + 1 }) {
                return false;
            }
        }
        true
    }

    fn play_one(rt: &HostRuntime, mine: &mut Scene, before: &Scene, call: &Call, used: &str) -> bool {
        let first = call.a0;
        let second = call.a1;
        let _ = println!(*rt; "case: descriptors in use: {used}; a0 is {first:#x}, a1 is {second:#x}");
        let came = answered(mine.kernel.STUDENT(&mut mine.hart, call));
        let made = doubled(&before.kernel, first);
        let asked = match made {
            None => -1,
            Some((_, new)) => i64::from(new),
        };
        let left = mine.a0();
        if came != asked || left != asked {
            let _ = println!(*rt; "before: descriptors in use: {used}; a0 is {first:#x}, a1 is {second:#x}\nclause: answer\nasked: the answer is {asked}, in a0 too\ncame: it is {came}, and a0 has {left}");
            return false;
        }
        if let Some(number) = first_amiss(&mine.kernel, &before.kernel, made) {
            let _ = println!(*rt; "before: descriptors in use: {used}; a0 is {first:#x}, a1 is {second:#x}\nclause: made\nasked: descriptor {number} of process 1 names another open file, or none\ncame: it names a wrong one, or none");
            return false;
        }
        for number in 0..NOFILE as u8 {
            if mine.kernel.table.descriptors(1).get(Fd::new(number)).is_some() {
                let _ = println!(*rt; "before: descriptors in use: {used}; a0 is {first:#x}, a1 is {second:#x}\nclause: made\nasked: descriptor {number} of process 2 stays free\ncame: it names an open file");
                return false;
            }
        }
        if !counts_right(&mut mine.kernel, &before.kernel, made) {
            let _ = println!(*rt; "before: descriptors in use: {used}; a0 is {first:#x}, a1 is {second:#x}\nclause: made\nasked: each open file and each pipe counts the descriptors on it\ncame: as they are closed, one goes too early, or stays");
            return false;
        }
        true
    }

    #[test]
    fn plays(rt: HostRuntime) {
        let mut cases = 0;
        for (is_2_free, more, used) in [(true, 0, "0, 1, 3 to 5"), (false, 0, "0 to 5"), (false, 26, "0 to 31"), (true, 26, "0, 1, 3 to 31")] {
            let before = scene(&rt, is_2_free, more);
            for a0 in [0, 2, 3, 4, 5, 6, 31, 32, 0x1_0000_0003, 0xFFFF_FFFF] {
                let call = Call { number: 10, a0, a1: 1, a2: 0, moved: 0, clock: 0 };
                let mut mine = scene(&rt, is_2_free, more);
                assert!(rt; play_one(&rt, &mut mine, &before, &call, used), "the case is told above");
                cases += 1;
            }
        }
        let _ = println!(rt; "played: {cases}");
    }
