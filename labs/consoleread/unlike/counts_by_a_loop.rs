        let mut end = 0;
        for place in 0..self.committed.len() {
            match self.byte(place) {
                Some(CTRL_D) | Some(NEW_LINE) => break,
                _ => end += 1,
            }
        }
        if end >= buf.len() {
            return self.take(buf, buf.len(), true);
        }
        match self.byte(end) {
            None => self.take(buf, end, false),
            Some(NEW_LINE) => self.take(buf, end + 1, true),
            Some(_) => {
                let pull = self.take(buf, end, true);
                if done + end == 0 {
                    self.committed.pop_front();
                }
                pull
            }
        }
