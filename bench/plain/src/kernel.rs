//! The kernel's rules, plainly: a ready word, a stack of tasks, a stack of locks.

use crate::plan::Plan;

pub struct Kernel {
    plan: Plan,
    ready: u64,
    started: u64,
    chain: Vec<u8>,
    held: Vec<(u8, u8, Option<u8>)>,
    marks: Vec<u64>,
}

fn highest(v: u64) -> Option<u8> {
    if v == 0 { None } else { Some(63 - v.leading_zeros() as u8) }
}

/// The number of a refusal, or the mark that a test found.
pub type Answer = Result<Option<bool>, u8>;

impl Kernel {
    pub fn new(plan: Plan) -> Kernel {
        let marks = vec![0; plan.registered.len()];
        Kernel { plan, ready: 0, started: 0, chain: Vec::with_capacity(64), held: Vec::with_capacity(32), marks }
    }

    pub fn running(&self) -> Option<u8> {
        self.chain.last().copied()
    }

    pub fn waiting(&self) -> u64 {
        self.ready
    }

    pub fn ceiling(&self) -> Option<u8> {
        self.held.last().and_then(|lock| lock.2)
    }

    fn dispatch(&mut self) {
        if let Some(w) = highest(self.ready) {
            if self.running().is_none_or(|t| w > t) && self.ceiling().is_none_or(|c| w > c) {
                self.ready &= !(1 << w);
                self.started |= 1 << w;
                self.chain.push(w);
            }
        }
    }

    fn put(&mut self, v: u64) {
        self.ready |= v & !self.started;
        self.dispatch();
    }

    pub fn release(&mut self, v: u64) -> Answer {
        if v & !self.plan.declared != 0 {
            return Err(14);
        }
        self.put(v);
        Ok(None)
    }

    pub fn lock(&mut self, r: u16) -> Answer {
        let t = self.running().ok_or(15)?;
        let users = *self.plan.users.get(r as usize).ok_or(16)?;
        if users >> t & 1 == 0 {
            return Err(17);
        }
        if self.held.iter().any(|lock| lock.0 as u16 == r) {
            return Err(18);
        }
        self.held.push((r as u8, t, self.ceiling().max(highest(users))));
        Ok(None)
    }

    pub fn unlock(&mut self, r: u16) -> Answer {
        let t = self.running().ok_or(15)?;
        if r as usize >= self.plan.users.len() {
            return Err(16);
        }
        if !self.held.iter().any(|lock| lock.0 as u16 == r && lock.1 == t) {
            return Err(19);
        }
        if self.held.last().is_none_or(|lock| lock.0 as u16 != r) {
            return Err(20);
        }
        self.held.pop();
        self.dispatch();
        Ok(None)
    }

    pub fn exit(&mut self) -> Answer {
        let t = self.running().ok_or(15)?;
        if self.held.iter().any(|lock| lock.1 == t) {
            return Err(21);
        }
        self.chain.pop();
        self.started &= !(1 << t);
        self.dispatch();
        Ok(None)
    }

    fn meant(&mut self, e: u16, v: Option<u64>) -> Result<u64, u8> {
        let registered = *self.plan.registered.get(e as usize).ok_or(16)?;
        let meant = v.unwrap_or(registered);
        if meant & !registered != 0 {
            return Err(14);
        }
        self.marks[e as usize] |= meant;
        Ok(meant)
    }

    pub fn signal(&mut self, e: u16, v: Option<u64>) -> Answer {
        self.meant(e, v)?;
        Ok(None)
    }

    pub fn signal_release(&mut self, e: u16, v: Option<u64>) -> Answer {
        let meant = self.meant(e, v)?;
        self.put(meant);
        Ok(None)
    }

    pub fn test(&mut self, e: u16) -> Answer {
        let t = self.running().ok_or(15)?;
        let registered = *self.plan.registered.get(e as usize).ok_or(16)?;
        if registered >> t & 1 == 0 {
            return Err(17);
        }
        let marks = &mut self.marks[e as usize];
        let found = *marks >> t & 1 == 1;
        *marks &= !(1 << t);
        Ok(Some(found))
    }
}
