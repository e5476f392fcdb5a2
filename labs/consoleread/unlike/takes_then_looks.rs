        let room = buf.len();
        let end = self.line_length();
        let count = end.min(room);
        self.take(buf, count, true);
        if end >= room {
            return Pull {
                taken: room,
                ended: true,
            };
        }
        match self.byte(0) {
            None => Pull {
                taken: end,
                ended: false,
            },
            Some(NEW_LINE) => {
                self.committed.pop_front();
                buf[end] = NEW_LINE;
                Pull {
                    taken: end + 1,
                    ended: true,
                }
            }
            Some(_) => {
                if done == 0 && end == 0 {
                    self.committed.pop_front();
                }
                Pull {
                    taken: end,
                    ended: true,
                }
            }
        }
