        for taken in 0..buf.len() {
            let Some(byte) = self.byte(0) else {
                return Pull {
                    taken,
                    ended: false,
                };
            };
            if byte == CTRL_D {
                if done + taken == 0 {
                    self.committed.pop_front();
                }
                return Pull { taken, ended: true };
            }
            self.committed.pop_front();
            buf[taken] = byte;
            if byte == NEW_LINE {
                return Pull {
                    taken: taken + 1,
                    ended: true,
                };
            }
        }
        Pull {
            taken: buf.len(),
            ended: true,
        }
