        let number = c_int(call.a0);
        if number < 1 {
            return self.refuse(hart);
        }
        let pid = Pid::new(number as u32);
        for slot in 0..64 {
            if self.table.pid_in(slot) == Some(pid) {
                self.table.mark(pid);
                return self.done(hart, 0);
            }
        }
        self.refuse(hart)
