        let end = self.line_length();
        if buf.len() <= end {
            return self.take(buf, buf.len(), true);
        }
        if let Some(byte) = self.byte(end) {
            if byte == NEW_LINE {
                return self.take(buf, end + 1, true);
            }
            if done == 0 && end == 0 {
                self.committed.pop_front();
                return Pull {
                    taken: 0,
                    ended: true,
                };
            }
            return self.take(buf, end, true);
        }
        self.take(buf, end, false)
