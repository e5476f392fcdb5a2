        if let State::Live(life) = &mut self.state {
            if life.channel == Some(*on) {
                life.channel = None;
            }
        }
