        let asked = c_int(call.a0);
        self.table.mark(Pid::new(asked.unsigned_abs()));
        let Some(pid) = asked_pid(asked) else {
            return self.done(hart, -1);
        };
        if self.table.find(pid).is_none() {
            return self.done(hart, -1);
        }
        self.done(hart, 0)
