        let Some(pid) = asked_pid(c_int(call.a0)) else {
            return self.done(hart, -1);
        };
        let slot = self.running_slot();
        if self.table.pid(slot) == pid {
            return self.done(hart, -1);
        }
        if !self.table.mark(pid) {
            return self.done(hart, -1);
        }
        self.done(hart, 0)
