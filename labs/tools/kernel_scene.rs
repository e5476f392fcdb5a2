    use std::alloc::Global;
    use std::process::Abort;

    // A program's file of one page, whose only instruction is ECALL.
    fn one_page(alloc: Global) -> Vec<u8> {
        let mut file = Vec::new(alloc);
        let mut head = [0; 124];
        head[..4].copy_from_slice(&[0x7F, b'E', b'L', b'F']);
        // The program headers begin at byte 64, and there is one.
        head[32] = 64;
        head[56] = 1;
        // It is loaded, may be read, written and executed, and its 4 bytes begin at byte 120; in memory it has 4,096.
        head[64] = 1;
        head[68] = 7;
        head[72] = 120;
        head[96] = 4;
        head[105] = 16;
        head[120] = 0x73;
        let _ = file.extend_from_slice(&head);
        file
    }

    // A kernel with its hart, whose process 1, in slot 0, runs; and so many children of it, which may run.
    #[derive(Drop)]
    struct Scene {
        kernel: Kernel,
        hart: Hart,
    }

    impl Scene {
        fn new<R: Abort + AllocGlobal>(rt: &R, children: usize) -> Scene {
            let mut name = Vec::new(rt.alloc());
            name.extend_from_slice(b"init".as_slice()).expect(rt, "memory");
            let mut programs = Vec::new(rt.alloc());
            let program = xk_base::Program { name, bytes: one_page(rt.alloc()) };
            programs.push(program).expect(rt, "memory");
            let mut kernel = Kernel::new(rt.alloc(), 64, programs).expect(rt, "memory");
            let mut hart = Hart::new();
            kernel.start(&mut hart).expect(rt, "the first program");
            kernel.turn(&mut hart);
            for _ in 0..children {
                kernel.fork(&mut hart);
            }
            Scene { kernel, hart }
        }

        // Turns go round until the process of a pid runs; whoever runs before it stops, and may run again.
        fn run(&mut self, pid: u32) {
            for _ in 0..64 {
                self.kernel.pause(&self.hart);
                if self.kernel.turn(&mut self.hart) == Some(xk_base::Pid::new(pid)) {
                    return;
                }
            }
        }

        fn a0(&self) -> i64 {
            self.hart.regs().read(xk_base::Reg::new(10)).cast_signed()
        }
    }

    // What a step answers, as a number: what the call answers, or one that no call here answers.
    fn answered(end: CallEnd) -> i64 {
        match end {
            CallEnd::Done(value) => value,
            CallEnd::Wait => 1_000_001,
            CallEnd::Gone(_) => 1_000_002,
        }
    }
