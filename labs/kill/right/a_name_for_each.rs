        let asked = c_int(call.a0);
        let pid = asked_pid(asked);
        let Some(victim) = pid else {
            return self.refuse(hart);
        };
        let is_there = self.table.mark(victim);
        if is_there {
            return self.done(hart, 0);
        }
        self.done(hart, -1)
