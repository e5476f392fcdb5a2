        let end = self.line_length();
        if buf.len() <= end {
            return self.take(buf, buf.len(), true);
        }
        match self.byte(end) {
            Some(NEW_LINE) => self.take(buf, end + 1, true),
            Some(_) => {
                if end > 0 || done > 0 {
                    self.take(buf, end, true)
                } else {
                    self.committed.pop_front();
                    Pull {
                        taken: 0,
                        ended: true,
                    }
                }
            }
            None => self.take(buf, end, false),
        }
