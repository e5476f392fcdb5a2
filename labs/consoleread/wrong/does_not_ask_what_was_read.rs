        let end = self.line_length();
        match self.byte(end) {
            _ if buf.len() <= end => self.take(buf, buf.len(), true),
            None => self.take(buf, end, false),
            Some(NEW_LINE) => self.take(buf, end + 1, true),
            Some(_) if end == 0 => {
                self.committed.pop_front();
                Pull {
                    taken: 0,
                    ended: true,
                }
            }
            Some(_) => self.take(buf, end, true),
        }
