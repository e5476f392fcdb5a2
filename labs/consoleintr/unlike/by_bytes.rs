        match key {
            0 | 16 => Echo::new(),
            8 | 127 => self.erase(),
            21 => self.kill(),
            _ if self.committed.len() + self.uncommitted.len() >= CONSOLE_BYTES => Echo::new(),
            13 => self.type_byte(10),
            _ => self.type_byte(key),
        }
