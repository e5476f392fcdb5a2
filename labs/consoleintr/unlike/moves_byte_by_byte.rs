        let byte = match Key::of(key) {
            Key::Ignored => return Echo::new(),
            Key::Erase => return self.erase(),
            Key::Kill => return self.kill(),
            Key::Typed(byte) => byte,
        };
        let held = self.held();
        if held >= CONSOLE_BYTES {
            return Echo::new();
        }
        self.uncommitted.push_back(byte);
        if byte == NEW_LINE || byte == CTRL_D || held + 1 == CONSOLE_BYTES {
            for _ in 0..self.uncommitted.len() {
                if let Some(first) = self.uncommitted.pop_front() {
                    self.committed.push_back(first);
                }
            }
        }
        let mut echo = Echo::new();
        echo.push(byte);
        echo
