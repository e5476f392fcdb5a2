        let end = self.line_length();
        if buf.len() <= end {
            self.take(buf, buf.len(), true)
        } else if self.byte(end).is_none() {
            self.take(buf, end, false)
        } else if self.byte(end) == Some(NEW_LINE) {
            self.take(buf, end + 1, true)
        } else if done == 0 && end == 0 {
            self.committed.pop_front();
            Pull {
                taken: 0,
                ended: true,
            }
        } else {
            self.take(buf, end, true)
        }
