        let end = self.line_length();
        if buf.len() <= end {
            return self.take(buf, buf.len(), true);
        }
        match self.byte(end) {
            None => self.take(buf, end, false),
            Some(NEW_LINE) => self.take(buf, end + 1, true),
            Some(_) => {
                if done == 0 && end == 0 {
                    self.committed.pop_front();
                    return Pull {
                        taken: 0,
                        ended: true,
                    };
                }
                self.take(buf, end, true)
            }
        }
