        let end = self.line_length();
        if end >= buf.len() {
            return self.take(buf, buf.len(), true);
        }
        let byte = self.byte(end);
        if byte.is_none() {
            return self.take(buf, end, false);
        }
        if byte == Some(NEW_LINE) {
            return self.take(buf, end + 1, true);
        }
        if done > 0 || end > 0 {
            return self.take(buf, end, true);
        }
        self.committed.pop_front();
        Pull { taken: 0, ended: true }
