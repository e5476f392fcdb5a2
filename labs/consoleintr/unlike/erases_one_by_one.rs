        let held = self.held();
        match Key::of(key) {
            Key::Erase => self.erase(),
            Key::Kill => {
                let mut echo = Echo::new();
                for _ in 0..self.uncommitted.len() {
                    let shown = self.erase();
                    echo.push(shown.as_slice()[0]);
                    echo.push(shown.as_slice()[1]);
                    echo.push(shown.as_slice()[2]);
                }
                echo
            }
            Key::Typed(byte) if held < CONSOLE_BYTES => self.type_byte(byte),
            Key::Ignored | Key::Typed(_) => Echo::new(),
        }
