//! The advertising instances of a controller: which there are, which one is on air, and how the turns go round.

/// How many instances a controller can have; they are counted from 1 on.
pub const INSTANCES: usize = 5;
/// The most octets of Adv_Data, and of Scan_Rsp.
pub const DATA: usize = 31;
/// The seconds that a duration of 0 stands for.
pub const DEFAULT_DURATION: u16 = 2;

/// One advertising instance.
#[derive(Clone, PartialEq, Eq, Hash, Debug)]
pub struct Instance {
    /// The seconds of a turn, at least 1.
    pub duration: u16,
    /// The seconds on air that are left to it, at least 1, where it has a timeout.
    pub timeout: Option<u16>,
    /// Adv_Data.
    pub data: Vec<u8>,
    /// Scan_Rsp.
    pub scan_response: Vec<u8>,
}

impl Instance {
    /// An instance from what a packet says: a duration of 0 is the default one, a timeout of 0 is none.
    pub fn new(duration: u16, timeout: u16, data: &[u8], scan_response: &[u8]) -> Instance {
        Instance {
            duration: if duration == 0 { DEFAULT_DURATION } else { duration },
            timeout: (timeout != 0).then_some(timeout),
            data: data.to_vec(),
            scan_response: scan_response.to_vec(),
        }
    }
}

/// Who is on air, and for how long.
#[derive(Clone, Copy, PartialEq, Eq, Hash, Debug)]
pub struct Turn {
    /// A present instance, 1 to 5.
    pub instance: u8,
    /// The seconds left of its turn, 1 to its duration.
    pub left: u16,
}

/// All that a controller has to advertise.
#[derive(Clone, PartialEq, Eq, Hash, Debug, Default)]
pub struct Advertising {
    /// The instances; instance n stands at place n - 1.
    pub instances: [Option<Instance>; INSTANCES],
    /// The one on air; there is one exactly while the controller is powered and any is present.
    pub turn: Option<Turn>,
}

impl Advertising {
    /// The instance 1 to 5, if it is present.
    pub fn instance(&self, which: u8) -> Option<&Instance> {
        self.instances.get(usize::from(which).checked_sub(1)?)?.as_ref()
    }

    /// The present instances, ascending.
    pub fn present(&self) -> impl Iterator<Item = u8> + '_ {
        (1..=INSTANCES as u8).filter(|which| self.instance(*which).is_some())
    }

    /// What the radio has to send: instance, both lengths, Adv_Data, Scan_Rsp of the one on air; nothing if none is.
    pub fn on_air(&self) -> Vec<u8> {
        let Some(turn) = self.turn else { return Vec::new() };
        let Some(instance) = self.instance(turn.instance) else { return Vec::new() };
        let lengths = [turn.instance, instance.data.len() as u8, instance.scan_response.len() as u8];
        [&lengths[..], &instance.data, &instance.scan_response].concat()
    }

    /// A whole turn of an instance, if it is present.
    fn whole_turn(&self, which: u8) -> Option<Turn> {
        self.instance(which).map(|instance| Turn { instance: which, left: instance.duration })
    }

    /// Passes the turn on from an instance: to the next present one above it, else to the lowest.
    fn pass_on(&mut self, from: u8) {
        let next = self.present().find(|other| *other > from).or_else(|| self.present().next());
        self.turn = next.and_then(|next| self.whole_turn(next));
    }

    /// Adds an instance, 1 to 5, or changes it. While there is power, the turn of the one on air ends where it is
    /// changed, and what comes where nothing is on air is on air at once. True if the instance is new.
    pub fn put(&mut self, which: u8, instance: Instance, powered: bool) -> bool {
        let place = usize::from(which) - 1;
        let new = self.instances[place].replace(instance).is_none();
        match self.turn {
            Some(turn) if turn.instance == which => self.pass_on(which),
            None if powered => self.turn = self.whole_turn(which),
            _ => {}
        }
        new
    }

    /// Removes the instances that the test picks, and gives them, ascending. If the one on air is among them the turn
    /// passes on.
    pub fn remove(&mut self, picks: impl Fn(u8, &Instance) -> bool) -> Vec<u8> {
        let picked = |which: &u8| self.instance(*which).is_some_and(|instance| picks(*which, instance));
        let gone: Vec<u8> = (1..=INSTANCES as u8).filter(picked).collect();
        for which in &gone {
            self.instances[usize::from(*which) - 1] = None;
        }
        match self.turn {
            Some(turn) if gone.contains(&turn.instance) => self.pass_on(turn.instance),
            _ => {}
        }
        gone
    }

    /// Power comes: the lowest instance is on air.
    pub fn power_on(&mut self) {
        let lowest = self.present().next();
        self.turn = lowest.and_then(|which| self.whole_turn(which));
    }

    /// Power goes: nothing is on air, and those with a timeout go. Gives these, ascending.
    pub fn power_off(&mut self) -> Vec<u8> {
        self.turn = None;
        self.remove(|_, instance| instance.timeout.is_some())
    }

    /// Lets seconds pass. Gives the instances whose timeout ran out, ascending.
    pub fn pass(&mut self, seconds: u32) -> Vec<u8> {
        let mut left = seconds;
        let mut gone = Vec::new();
        while let Some(turn) = self.turn.filter(|_| left > 0) {
            left -= self.skip_rounds(turn, left);
            left -= self.stay(turn, left, &mut gone);
        }
        gone.sort_unstable();
        gone
    }

    /// The one on air stays there until its turn ends, its timeout ends or the seconds are over. Gives how long that is.
    fn stay(&mut self, turn: Turn, seconds: u32, gone: &mut Vec<u8>) -> u32 {
        let place = usize::from(turn.instance) - 1;
        let Some(instance) = &mut self.instances[place] else { return seconds };
        let most = instance.timeout.map_or(turn.left, |timeout| timeout.min(turn.left));
        let stay = seconds.min(most.into()) as u16;
        instance.timeout = instance.timeout.map(|timeout| timeout - stay);
        self.turn = Some(Turn { left: turn.left - stay, ..turn });
        if instance.timeout == Some(0) {
            self.instances[place] = None;
            gone.push(turn.instance);
            self.pass_on(turn.instance);
        } else if turn.left == stay {
            self.pass_on(turn.instance);
        }
        stay.into()
    }

    /// At the beginning of a turn: lets as many whole rounds pass as end in the time given and leave each timeout at
    /// least a second. Everyone has had whole turns then, and the same one begins again. Gives the seconds of them.
    fn skip_rounds(&mut self, turn: Turn, seconds: u32) -> u32 {
        if self.whole_turn(turn.instance) != Some(turn) {
            return 0;
        }
        let present = || self.instances.iter().flatten();
        let round: u32 = present().map(|instance| u32::from(instance.duration)).sum();
        let lasts = |instance: &Instance| Some(u32::from((instance.timeout? - 1) / instance.duration));
        let rounds = present().filter_map(lasts).fold(seconds / round, u32::min);
        for instance in self.instances.iter_mut().flatten() {
            instance.timeout = instance.timeout.map(|timeout| timeout - rounds as u16 * instance.duration);
        }
        rounds * round
    }
}
