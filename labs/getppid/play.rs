    // Process 1, its child 2, whose children are 3 and 4, and perhaps the children of 2 went to 1.
    fn begin(alloc: std::alloc::Global, is_2_gone: bool) -> Option<Table> {
        let Ok(mut table) = Table::new(alloc, xk_base::Pid::new(1)) else {
            return None;
        };
        for parent in [0, 1, 2, 2] {
            let parent = if parent == 0 { None } else { Some(xk_base::Pid::new(parent)) };
            if table.spawn(parent).is_err() {
                return None;
            }
        }
        if is_2_gone {
            table.adopt(xk_base::Pid::new(2), xk_base::Pid::new(1));
            table.zombie(1, 0);
        }
        Some(table)
    }

    fn play_one(rt: &HostRuntime, table: &Table, slot: usize, asked: i64) -> bool {
        let pid = slot + 1;
        let _ = println!(*rt; "case: process {pid}, whose parent is {asked} (0: it has none)");
        let came = STUDENT(table, slot);
        if came != asked {
            let _ = println!(*rt; "before: process {pid}, whose parent is {asked} (0: it has none), is in slot {slot}\nclause: \nasked: {asked}\ncame: {came}");
        }
        came == asked
    }

    #[test]
    fn plays(rt: HostRuntime) {
        let mut cases = 0;
        for is_2_gone in [false, true] {
            let Some(table) = begin(rt.alloc(), is_2_gone) else {
                return;
            };
            for slot in 0..4 {
                let asked = if slot == 0 { 0 } else if slot == 1 || is_2_gone { 1 } else { 2 };
                assert!(rt; play_one(&rt, &table, slot, asked), "the case is told above");
                cases += 1;
            }
        }
        let _ = println!(rt; "played: {cases}");
    }
