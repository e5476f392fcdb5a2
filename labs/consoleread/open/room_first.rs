        let end = self.line_length();
        let room = buf.len();
        if end < room {
            if let Some(byte) = self.byte(end) {
                if byte == NEW_LINE {
                    self.take(buf, end + 1, true)
                } else if done + end == 0 {
                    self.committed.pop_front();
                    Pull {
                        taken: 0,
                        ended: true,
                    }
                } else {
                    self.take(buf, end, true)
                }
            } else {
                self.take(buf, end, false)
            }
        } else {
            self.take(buf, room, true)
        }
