        let size = buf.len();
        let line = self.line_length();
        if size <= line {
            return self.take(buf, size, true);
        }
        let Some(last) = self.byte(line) else {
            return self.take(buf, line, false);
        };
        if last == NEW_LINE {
            return self.take(buf, line + 1, true);
        }
        if done == 0 && line == 0 {
            self.committed.pop_front();
            return Pull {
                taken: 0,
                ended: true,
            };
        }
        self.take(buf, line, true)
