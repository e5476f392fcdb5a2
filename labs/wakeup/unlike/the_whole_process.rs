        let state = match self.state {
            State::Zombie { status } => State::Zombie { status },
            State::Live(life) => State::Live(Life {
                marked: life.marked,
                call: life.call,
                channel: if life.sleeps_on(on) { None } else { life.channel },
            }),
        };
        *self = Process {
            pid: self.pid,
            parent: self.parent,
            state,
        };
