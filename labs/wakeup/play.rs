    use xk_base::Frame;

    const SLEEPS: usize = 9;

    // What a process may sleep on: nothing, or one of eight channels.
    fn channel(number: usize) -> Option<Channel> {
        match number {
            0 => None,
            1 => Some(Channel::Children(Pid::new(1))),
            2 => Some(Channel::Children(Pid::new(2))),
            3 => Some(Channel::Bytes(Frame::new(1))),
            4 => Some(Channel::Bytes(Frame::new(2))),
            5 => Some(Channel::Room(Frame::new(1))),
            6 => Some(Channel::Clock),
            7 => Some(Channel::Keys),
            _ => Some(Channel::Sending),
        }
    }

    fn name(number: usize) -> &'static str {
        match number {
            0 => "nothing",
            1 => "Children(1)",
            2 => "Children(2)",
            3 => "Bytes(1)",
            4 => "Bytes(2)",
            5 => "Room(1)",
            6 => "Clock",
            7 => "Keys",
            _ => "Sending",
        }
    }

    fn process(number: usize, marked: bool, in_call: bool, has_ended: bool) -> Process {
        let call = Call { number: 5, a0: 1, a1: 2, a2: 3, moved: 4, clock: 9 };
        let life = Life { marked, call: if in_call { Some(call) } else { None }, channel: channel(number) };
        let state = if has_ended { State::Zombie { status: -7 } } else { State::Live(life) };
        Process { pid: Pid::new(3), parent: if marked { None } else { Some(Pid::new(1)) }, state }
    }

    fn is_same_call(one: Option<Call>, other: Option<Call>) -> bool {
        match (one, other) {
            (None, None) => true,
            (Some(a), Some(b)) => a.number == b.number && a.a0 == b.a0 && a.a1 == b.a1 && a.a2 == b.a2 && a.moved == b.moved && a.clock == b.clock,
            _ => false,
        }
    }

    // What differs between two processes: nothing, what they sleep on, or something else.
    fn difference(one: &Process, other: &Process) -> usize {
        if one.pid != other.pid || one.parent != other.parent {
            return 2;
        }
        match (one.state, other.state) {
            (State::Zombie { status: a }, State::Zombie { status: b }) => if a == b { 0 } else { 2 },
            (State::Live(a), State::Live(b)) => {
                if a.marked != b.marked || !is_same_call(a.call, b.call) {
                    return 2;
                }
                if a.channel == b.channel { 0 } else { 1 }
            }
            _ => 2,
        }
    }

    fn play_one(rt: &HostRuntime, number: usize, marked: bool, in_call: bool, has_ended: bool, on: &Channel, on_number: usize) -> bool {
        let mut mine = process(number, marked, in_call, has_ended);
        // The contract: a live process that sleeps on just this channel sleeps on nothing then, and all else stays.
        let after = if !has_ended && number == on_number { 0 } else { number };
        let its = process(after, marked, in_call, has_ended);
        let sleeps = name(number);
        let by = name(on_number);
        let lives = if has_ended { "it has ended" } else { "it lives" };
        let _ = println!(*rt; "case: a process ({lives}, marked: {marked}, in a call: {in_call}) sleeps on {sleeps}; who sleeps on {by} is woken");
        mine.STUDENT(on);
        let is_awake = mine.is_runnable();
        let wanted = its.is_runnable();
        let differs = difference(&mine, &its);
        if !(differs != 1) {
            let _ = println!(*rt; "before: a process ({lives}, marked: {marked}, in a call: {in_call}) sleeps on {sleeps}; who sleeps on {by} is woken\nasked: awake then: {wanted}\ncame: awake: {is_awake}");
            return false;
        }
        if differs != 0 {
            let _ = println!(*rt; "before: a process ({lives}, marked: {marked}, in a call: {in_call}) sleeps on {sleeps}; who sleeps on {by} is woken\nasked: nothing changes but what it sleeps on\ncame: something else changed too, or it lives again");
            return false;
        }
        true
    }

    #[test]
    fn plays(rt: HostRuntime) {
        let mut cases = 0;
        for number in 0..SLEEPS {
            for on_number in 1..SLEEPS {
                for bits in 0..8 {
                    if let Some(on) = channel(on_number) {
                        assert!(rt; play_one(&rt, number, bits & 1 == 1, bits & 2 == 2, bits & 4 == 4, &on, on_number), "the case is told above");
                        cases += 1;
                    }
                }
            }
        }
        let _ = println!(rt; "played: {cases}");
    }
