        if let State::Live(life) = &mut self.state {
            life.channel = match life.channel {
                Some(channel) if channel != *on => Some(channel),
                _ => None,
            };
        }
