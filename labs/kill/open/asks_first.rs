        let Some(pid) = asked_pid(c_int(call.a0)) else {
            return self.refuse(hart);
        };
        if self.table.find(pid).is_none() {
            return self.refuse(hart);
        }
        self.table.mark(pid);
        self.done(hart, 0)
